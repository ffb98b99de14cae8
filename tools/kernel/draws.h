// What the recorders of runs draw: the credential that a run begins in, and calls with arguments for a process whose
// credential is given. A run's draws follow from `drawn` at its start, whatever compiler builds it: none depends on the
// order in which an expression is evaluated.
#define LAST CAP_CHECKPOINT_RESTORE     // the last capability of capabilities(7)
#define LOCKS 0xaau         // of its securebits

enum call {
    SETUID, SETREUID, SETRESUID, SETFSUID, SETGID, SETREGID, SETRESGID, SETFSGID, SETGROUPS, CAPSET, BSET_DROP, AMB_RAISE,
    AMB_LOWER, AMB_CLEAR, SECUREBITS, KEEPCAPS, NO_NEW_PRIVS, FORK, EXIT, CLONE_USER, UNSHARE, SETNS, WRITE_UID_MAP,
    WRITE_GID_MAP, WRITE_SETGROUPS, CALLS,
};

static const struct about {
    const char *name;
    int length;     // how many arguments; of setgroups it is drawn
    long number;    // of the calls that take ids alone
    uint64_t needs; // the capability without which all is refused
} about[CALLS] = {
    [SETUID] = { "setuid", 1, SYS_setuid, 0 },
    [SETREUID] = { "setreuid", 2, SYS_setreuid, 0 },
    [SETRESUID] = { "setresuid", 3, SYS_setresuid, 0 },
    [SETFSUID] = { "setfsuid", 1, SYS_setfsuid, 0 },
    [SETGID] = { "setgid", 1, SYS_setgid, 0 },
    [SETREGID] = { "setregid", 2, SYS_setregid, 0 },
    [SETRESGID] = { "setresgid", 3, SYS_setresgid, 0 },
    [SETFSGID] = { "setfsgid", 1, SYS_setfsgid, 0 },
    [SETGROUPS] = { "setgroups", 0, 0, CAP(SETGID) },
    [CAPSET] = { "capset", 3, 0, 0 },
    [BSET_DROP] = { "bset_drop", 1, 0, CAP(SETPCAP) },
    [AMB_RAISE] = { "amb_raise", 1, 0, 0 },
    [AMB_LOWER] = { "amb_lower", 1, 0, 0 },
    [AMB_CLEAR] = { "amb_clear", 0, 0, 0 },
    [SECUREBITS] = { "securebits", 1, 0, CAP(SETPCAP) },
    [KEEPCAPS] = { "keepcaps", 1, 0, 0 },
    [NO_NEW_PRIVS] = { "no_new_privs", 1, 0, 0 },
    [FORK] = { "fork", 0, 0, 0 },
    [EXIT] = { "exit", 0, 0, 0 },
    [CLONE_USER] = { "clone_user", 0, 0, 0 },
    [UNSHARE] = { "unshare", 0, 0, 0 },
    [SETNS] = { "setns", 0, 0, 0 },
    [WRITE_UID_MAP] = { "write_uid_map", 0, 0, 0 },
    [WRITE_GID_MAP] = { "write_gid_map", 0, 0, 0 },
    [WRITE_SETGROUPS] = { "write_setgroups", 0, 0, 0 },
};

static int is_birth(enum call call)
{
    return call == FORK || call == CLONE_USER;
}

struct order {
    enum call call;
    int length;
    unsigned long a[MOST_GROUPS];
};

// ---- numbers ----------------------------------------------------------------------------------------------------------

#define ONE_OF(table) (table)[draw(sizeof (table) / sizeof *(table))]

static uint64_t drawn;

// 64 bits: splitmix64.
static uint64_t bits(void)
{
    uint64_t x = drawn += 0x9e3779b97f4a7c15;

    x = (x ^ x >> 30) * 0xbf58476d1ce4e5b9;
    x = (x ^ x >> 27) * 0x94d049bb133111eb;
    return x ^ x >> 31;
}

static unsigned draw(unsigned below)
{
    return (bits() >> 32) % below;
}

// ---- credentials ------------------------------------------------------------------------------------------------------

// Credentials as numbers.
struct credential {
    unsigned ids[2][4];     // of users and of groups: real, effective, saved, fs
    int length;
    unsigned groups[MOST_GROUPS];
    uint64_t inh, prm, eff, bnd, amb;
    unsigned sec;
};

static const uint64_t powers = CAP(SETUID) | CAP(SETGID) | CAP(SETPCAP);
static const unsigned char favourites[] = {
    CAP_SETUID, CAP_SETGID, CAP_SETPCAP, CAP_CHOWN, CAP_MKNOD, CAP_LINUX_IMMUTABLE, CAP_MAC_OVERRIDE, CAP_KILL,
    CAP_NET_BIND_SERVICE, CAP_SYS_ADMIN, CAP_AUDIT_READ, LAST,
};
static const unsigned palette[] = { 0, 0, 0, 0, 1000, 1000, 1001, 33, 2147483648u, 4294967294u };
static const unsigned flags[] = { SECBIT_NOROOT, SECBIT_NO_SETUID_FIXUP, SECBIT_KEEP_CAPS, SECBIT_NO_CAP_AMBIENT_RAISE };

static unsigned any_capability(void)
{
    return draw(2) ? ONE_OF(favourites) : draw(LAST + 1);
}

static uint64_t half_of(uint64_t set)
{
    return set & bits();
}

static uint64_t few_of(uint64_t set)
{
    return set & bits() & bits() & bits();
}

// A capability of the set where it has any, else any.
static unsigned one_of(uint64_t set)
{
    unsigned number = set ? draw(__builtin_popcountll(set)) : 0;

    if (!set)
        return any_capability();
    while (number--)
        set &= set - 1;
    return __builtin_ctzll(set);
}

static void draw_ids(unsigned *ids)
{
    unsigned all = ONE_OF(palette), mixed = draw(3);

    for (int i = 0; i < 4; i++)
        ids[i] = mixed == 0 ? ONE_OF(palette) : all;
}

// Sets within `have`, securebits and no_new_privs.
static void draw_rest(struct wanted *to, uint64_t have)
{
    switch (draw(8)) {
    case 0: case 1: case 2: to->prm = have; break;
    case 3: to->prm = half_of(have); break;
    case 4: to->prm = half_of(have) | powers; break;
    case 5: to->prm = few_of(have); break;
    case 6: to->prm = powers; break;
    default: to->prm = 0; break;
    }
    to->eff = draw(4) ? to->prm : half_of(to->prm);
    switch (draw(4)) {
    case 0: to->inh = 0; break;
    case 1: to->inh = have; break;
    case 2: to->inh = half_of(have); break;
    default: to->inh = few_of(have); break;
    }
    to->amb = draw(4) ? half_of(to->prm & to->inh) : 0;
    switch (draw(4)) {
    case 0: to->bnd = half_of(have); break;
    case 1: to->bnd = have & ~few_of(have); break;
    default: to->bnd = have; break;
    }
    to->sec = 0;
    for (int i = 0; i < 4; i++) {
        to->sec |= draw(4) ? 0 : flags[i];
        to->sec |= draw(8) ? 0 : flags[i] << 1;
    }
    to->nnp = draw(6) == 0;
}

// What a run begins in.
static void draw_start(struct wanted *to)
{
    draw_ids(to->uids);
    draw_ids(to->gids);
    to->length = draw(4);
    for (int i = 0; i < to->length; i++)
        to->groups[i] = ONE_OF(palette);
    draw_rest(to, own);
}

// ---- calls ------------------------------------------------------------------------------------------------------------

static unsigned draw_id(const struct credential *c, int side)
{
    switch (draw(16)) {
    case 0: case 1: case 2: case 3: case 4: case 5: case 6:
        return c->ids[side][draw(4)];
    case 7:
        return c->ids[!side][draw(4)];
    case 8:
        return c->length ? c->groups[draw(c->length)] : 0;
    case 9: case 10: case 11:
        return NONE;
    default:
        return ONE_OF(palette);
    }
}

// In one of four lists all are one id.
static void draw_id_list(const struct credential *c, int side, struct order *o)
{
    int alike = draw(4) == 0;

    for (int i = 0; i < o->length; i++)
        o->a[i] = alike && i ? o->a[0] : draw_id(c, side);
}

// Near what the caller has: mostly less of it, at times more than it may have, at times bits past the last capability.
static void draw_sets(const struct credential *c, unsigned long *a)
{
    uint64_t keep = draw(4) ? powers : 0, past = draw(12) ? 0 : bits() << (LAST + 1);
    uint64_t prm, eff, inh;

    switch (draw(8)) {
    case 0: case 1: case 2: case 3: prm = c->prm; break;
    case 4: prm = c->prm & (half_of(c->prm) | keep); break;
    case 5: prm = c->prm | 1ull << any_capability(); break;
    default: prm = c->prm & ~(1ull << one_of(c->prm & ~keep)); break;
    }
    switch (draw(8)) {
    case 0: case 1: case 2: eff = prm; break;
    case 3: case 4: eff = prm & (c->eff | 1ull << one_of(prm)); break;
    case 5: eff = prm & (half_of(prm) | keep); break;
    case 6: eff = c->eff; break;
    default: eff = c->eff ^ 1ull << any_capability(); break;
    }
    switch (draw(8)) {
    case 0: case 1: inh = c->inh; break;
    case 2: inh = c->inh | few_of(c->prm); break;
    case 3: inh = c->inh | 1ull << one_of(c->bnd); break;
    case 4: inh = c->prm; break;
    case 5: inh = half_of(c->inh); break;
    case 6: inh = c->inh | few_of(own); break;
    default: inh = c->inh ^ 1ull << any_capability(); break;
    }
    a[0] = eff;
    a[1] = prm;
    a[2] = inh;
    a[draw(3)] |= past;
}

static unsigned draw_capability(uint64_t likely)
{
    static const unsigned past[] = { LAST + 1, 63, 64, 255, 4294967295u };

    if (draw(8) == 0)
        return ONE_OF(past);
    return draw(3) ? one_of(likely) : any_capability();
}

static unsigned draw_securebits(unsigned now)
{
    unsigned flag = ONE_OF(flags);

    switch (draw(16)) {
    case 0:
        return now;
    case 1: case 2:
        return draw(256);
    case 3: case 4: case 5:
        return now | flag << 1;
    case 6:
        return now & ~(unsigned)half_of(LOCKS);
    case 7:
        now = draw(2) ? now : now ^ flag;
        return now | (1u << (8 + draw(4)));
    case 8:
        return now | (1u << (8 + draw(24)));
    default:
        return now ^ flag;
    }
}

static int births;      // how often a run has a fork

// A call by the weights `often`, which says nothing of forks.
static enum call draw_call(const unsigned char *often)
{
    int all = births, call = 0;

    for (int i = 0; i < CALLS; i++)
        all += often[i];
    for (int left = (int)draw(all) - births; left >= 0; call++)
        if ((left -= often[call]) < 0)
            return call;
    return FORK;
}

// The arguments of a call that changes nothing but its caller's credential.
static void draw_arguments(const struct credential *c, enum call call, struct order *o)
{
    static const unsigned words[] = { 0, 0, 0, 0, 1, 1, 1, 1, 2, 16, 4294967295u };

    *o = (struct order){ .call = call, .length = about[call].length };
    if (about[call].number)
        draw_id_list(c, call >= SETGID, o);
    switch (call) {
    case SETGROUPS:
        o->length = draw(6);
        for (int i = 0; i < o->length; i++)
            do
                o->a[i] = draw_id(c, 1);
            while (o->a[i] == NONE && draw(4));
        break;
    case CAPSET: draw_sets(c, o->a); break;
    case BSET_DROP: o->a[0] = draw_capability(c->bnd & ~powers); break;
    case AMB_RAISE: o->a[0] = draw_capability(c->prm & c->inh & ~c->amb); break;
    case AMB_LOWER: o->a[0] = draw_capability(c->amb); break;
    case SECUREBITS: o->a[0] = draw_securebits(c->sec); break;
    case KEEPCAPS: case NO_NEW_PRIVS: o->a[0] = ONE_OF(words); break;
    default: break;
    }
}
