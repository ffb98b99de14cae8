// What the recorder of spaces draws: callers, calls, spaces and maps that might do. It is included once, after spaces.h.

// In how many of 100 draws or so each call comes.
static const unsigned char often[CALLS] = {
    [SETUID] = 3, [SETREUID] = 4, [SETRESUID] = 6, [SETFSUID] = 3, [SETGID] = 2, [SETREGID] = 2, [SETRESGID] = 4,
    [SETFSGID] = 2, [SETGROUPS] = 5, [CAPSET] = 7, [BSET_DROP] = 2, [AMB_RAISE] = 2, [AMB_LOWER] = 1, [AMB_CLEAR] = 1,
    [SECUREBITS] = 3, [KEEPCAPS] = 2, [NO_NEW_PRIVS] = 1, [EXIT] = 3, [CLONE_USER] = 6, [UNSHARE] = 6, [SETNS] = 9,
    [WRITE_UID_MAP] = 14, [WRITE_GID_MAP] = 12, [WRITE_SETGROUPS] = 8,
};

static struct list list;    // of the map write that comes next

// The capabilities that the calls on spaces ask for.
static const unsigned char asked[] = { CAP_SETUID, CAP_SETGID, CAP_SYS_ADMIN, CAP_SETFCAP, CAP_SETPCAP };

// A process's credential with ids as its space has them, 65534 for those that it doesn't map.
static void from_inside(int place, struct credential *c)
{
    *c = tree[place].c;
    for (int side = 0; side < 2; side++)
        for (int i = 0; i < 4; i++)
            if ((c->ids[side][i] = up(space_of[place], side, c->ids[side][i])) == NONE)
                c->ids[side][i] = 65534;
    for (int i = 0; i < c->length; i++)
        if ((c->groups[i] = up(space_of[place], 1, c->groups[i])) == NONE)
            c->groups[i] = 65534;
}

// Whether the call may do something to that space, which is the caller's or below it.
static int is_likely(int place, enum call call, int space)
{
    int at = space_of[place];

    if (!is_below(space, at))
        return 0;
    switch (call) {
    case SETNS: return space != at;
    case WRITE_UID_MAP: return !spaces[space].maps[0].length;
    default: return !spaces[space].maps[1].length;
    }
}

// Of setns and of words the deeper one of two.
static int draw_target(int place, enum call call)
{
    int likely[MOST_SPACES], length = 0;

    for (int space = 0; space < standing; space++)
        if (is_likely(place, call, space))
            likely[length++] = space;
    if (!length || draw(8) == 0)
        return draw(standing);
    int one = likely[draw(length)], other = likely[draw(length)];
    return (call == SETNS || call == WRITE_SETGROUPS) && spaces[other].level > spaces[one].level ? other : one;
}

// A range that lies in an extent of the map, where it has any.
static struct extent draw_range(const struct list *map, unsigned inside)
{
    static const unsigned steps[] = { 0, 0, 1, 1000, 100000, 200000 }, lengths[] = { 1, 2, 1000, 65536, 4294967295u };
    unsigned length = ONE_OF(lengths), step = ONE_OF(steps), some = draw(9000);

    if (!map->length)
        return (struct extent){ inside, ONE_OF(palette), length };
    const struct extent *e = &map->e[draw(map->length)];
    if (step >= e->length)
        step = some % e->length;
    if (length > e->length - step)
        length = e->length - step;
    return (struct extent){ inside, e->inside + step, length };
}

// A list of `length` lines that might be a map but for their number.
static void many_lines(const struct list *above, int length)
{
    unsigned first = above->length ? above->e[0].inside : 0;

    list.length = length;
    for (int i = 0; i < length; i++)
        list.e[i] = (struct extent){ i, first + i, 1 };
}

// A range that begins in an extent of the map and ends after it.
static struct extent over_an_end(const struct list *map, unsigned inside)
{
    struct extent range = draw_range(map, inside);

    for (int i = 0; i < map->length; i++)
        if (range.outside - map->e[i].inside < map->e[i].length)
            range.length = map->e[i].length - (range.outside - map->e[i].inside) + 1 + draw(2);
    return range;
}

// A range in `length` lines, whose insides leave some ids out.
static void divide(struct extent range, int length)
{
    unsigned each = range.length / length, gap = draw(3);

    list.length = length;
    for (int i = 0; i < length; i++)
        list.e[i] = (struct extent){ range.inside + i * (each + gap), range.outside + i * each, each ? each : 1 };
}

static void draw_fault(const struct list *above)
{
    struct extent *e = list.e, some = draw_range(above, 0);

    list.length = 2;
    e[0] = e[1] = some;
    switch (draw(8)) {
    case 0: list.length = 0; break;
    case 1: list.length = 1; e[0].length = 0; break;
    case 2: list.length = 1; e[0].inside = 4294967295u - draw(2); e[0].length = 1 + draw(2); break;
    case 3: list.length = 1; e[0].outside = 4294967295u - draw(2); e[0].length = 1 + draw(2); break;
    case 4: e[1].inside += some.length - 1; e[1].outside += some.length; break;
    case 5: e[1].inside += some.length; break;
    case 6: many_lines(above, 340 + draw(2)); break;
    default: many_lines(above, 2 + draw(9)); e[draw(list.length)].length = 2; break;
    }
}

// What the process at that place may write to a map of that space: its own id, ranges, the parent's 0, and faults.
static void draw_list(int place, int target, int side)
{
    static const unsigned insides[] = { 0, 0, 0, 1, 1000 };
    int parent = spaces[target].parent;
    const struct list *above = &spaces[parent].maps[side];
    unsigned own_id = up(parent, side, tree[place].c.ids[side][1]), inside = ONE_OF(insides), wide;

    if (own_id == NONE)
        own_id = ONE_OF(palette);
    if (draw(8) == 0)
        own_id = ONE_OF(palette);
    list.length = 1;
    switch (draw(16)) {
    case 0: case 1: case 2: case 3: case 4: case 5:
        list.e[0] = (struct extent){ inside, own_id, 1 };
        break;
    case 6: case 7: case 8: case 9:
        list.e[0] = draw_range(above, inside);
        break;
    case 10:
        list.length = 2;
        list.e[0] = (struct extent){ 0, own_id, 1 };
        list.e[1] = draw_range(above, 1);
        break;
    case 11:
        divide(draw_range(above, inside), 2 + draw(6));
        break;
    case 12: case 13:
        wide = draw_range(above, 0).length;
        list.e[0] = (struct extent){ inside, 0, wide };
        break;
    case 14:
        list.e[0] = over_an_end(above, inside);
        break;
    default:
        draw_fault(above);
        break;
    }
}

// The effective set with one of the asked capabilities turned, where it is permitted.
static void draw_fewer(const struct credential *c, struct order *o)
{
    o->a[0] = (c->eff ^ 1ull << ONE_OF(asked)) & c->prm;
    o->a[1] = c->prm;
    o->a[2] = c->inh;
}

static void draw_event(int place, struct order *o)
{
    enum call call = draw_call(often);
    struct credential c;

    *o = (struct order){ .call = call, .length = about[call].length };
    from_inside(place, &c);
    if (call == CAPSET && draw(2))
        draw_fewer(&c, o);
    else if (call < FORK)
        draw_arguments(&c, call, o);
    else if (call >= SETNS)
        o->a[0] = draw_target(place, call);
    if (call == WRITE_SETGROUPS)
        o->a[1] = draw(3) != 0;
    if (call == WRITE_UID_MAP || call == WRITE_GID_MAP)
        draw_list(place, o->a[0], call == WRITE_GID_MAP);
}

// Whether the ids of which calls on spaces speak have a mapping in the caller's space.
static int is_mapped(int place)
{
    struct credential *c = &tree[place].c;

    return up(space_of[place], 0, c->ids[0][1]) != NONE && up(space_of[place], 1, c->ids[1][1]) != NONE;
}

// Calls that are passed over: those for which there is no room, the last exit, securebits that record_runs has and no
// world can declare; and for the most part calls that can't but be refused.
static int is_passed_over(int place, const struct order *o)
{
    const struct space *at = &spaces[space_of[place]];
    int side = o->call >= SETGID, creates = o->call == UNSHARE || o->call == CLONE_USER;

    if ((is_birth(o->call) && living == PLACES) || (o->call == EXIT && living == 1))
        return 1;
    if ((creates && standing == MOST_SPACES) || (o->call == SECUREBITS && o->a[0] > 0xff))
        return 1;
    if (creates && (!is_mapped(place) || (at->level == 0 && standing > 3)))
        return draw(6);
    if (o->call >= SETNS && !is_likely(place, o->call, o->a[0]))
        return draw(6);
    if (o->call <= SETGROUPS && !at->maps[side].length)
        return draw(6);
    return (about[o->call].needs & ~tree[place].c.eff) && draw(2);
}

// A process that lives: often the one that made the last call, or the newest.
static int draw_place(int last)
{
    int number = draw(living), place = 0, newest = 0;

    for (int i = 0; i < PLACES; i++)
        if (tree[i].lives && (!tree[newest].lives || tree[i].pid > tree[newest].pid))
            newest = i;
    switch (draw(4)) {
    case 0: return tree[last].lives ? last : newest;
    case 1: return newest;
    default: break;
    }
    for (; !tree[place].lives || number--; place++)
        ;
    return place;
}
