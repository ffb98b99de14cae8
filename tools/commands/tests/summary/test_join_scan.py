"""A world and a log with the files of a scan: what each path means in the log, and what it means later."""
from credaudit_tools.command_line.command import Failure
from credaudit_tools.formats.worlds import File, Mount, World
from credaudit_tools.summary.join_scan import Joined, joined

from ..support import Case

SU, SHELL, OTHER = "/usr/bin/su", "/bin/sh", "/srv/x"
SET_USER, PLAIN, CLOSED = File(SU, 0, 0, 0o4755), File(SU, 0, 0, 0o755), File(SU, 0, 0, 0o750)
NOSUID = Mount("nosuid", nosuid=True)
LOG = (b'100 execve("/usr/bin/su", [], NULL) = 0\n'
       b'100 execveat(AT_FDCWD, "/usr/bin/su", [], NULL, 0) = -1 EACCES (Permission denied)\n'
       b'100 execve("/srv/x", [], NULL) = 0\n100 setuid(0) = 0\n')
RENAMED = LOG.replace(b'"/usr/bin/su"', b'"/usr/bin/su#2"')


class TwoMeanings(Case):
    def join(self, own: list[File], scan: list[File], log: bytes = LOG, recorded: bool = True,
             form: str = "strace") -> Joined:
        return joined(World(form, files=own, mounts=[NOSUID]), log, World(files=scan), recorded)

    def test_both_rows_stand(self) -> None:
        shadows = (PLAIN, CLOSED, File(SU, 0, 0, 0o4755, mount="nosuid"), File(SU, 33, 0, 0o4755),
                   File(SU, 0, 0, 0o4755, caps="0100000200000000000000000000000000000000"))
        for own in shadows:
            for one, other in ((own, SET_USER), (SET_USER, own)):
                with self.subTest(one=one, other=other):
                    made = self.join([one], [other])
                    self.assertEqual([(each.path, each.mode, each.uid, each.mount, each.caps)
                                      for each in made.world.files],
                                     [(SU + "#2", one.mode, one.uid, one.mount, one.caps),
                                      (SU, other.mode, other.uid, other.mount, other.caps)])
                    self.assertEqual((made.log, made.renamed), (RENAMED, {SU: SU + "#2"}))

    def test_a_plain_file_of_a_recording(self) -> None:
        made = self.join([], [SET_USER])
        self.assertEqual((made.world.files, made.log), ([SET_USER], RENAMED))
        self.assertEqual(made.notes(), [f"{SU} was another file in the log than in the scan: the log's stands there as"
                                        f" {SU}#2"])

    def test_a_path_of_a_world_of_ones_own(self) -> None:
        made = self.join([], [SET_USER], recorded=False)
        self.assertEqual((made.world.files, made.log, made.notes()), ([SET_USER], LOG, []))

    def test_one_file(self) -> None:
        for own in ([SET_USER], [SET_USER, File("/opt/own", 5, 5, 0o2755)]):
            made = self.join(own, [SET_USER, File("/bin/other", 0, 0, 0o4711)])
            self.assertEqual(made.world.files, [*own, File("/bin/other", 0, 0, 0o4711)])
            self.assertEqual((made.log, made.renamed), (LOG, {}))

    def test_an_interpreter_that_is_another_file(self) -> None:
        script = File(OTHER, 0, 0, 0o755, interpreter=SHELL)
        made = self.join([File(SHELL, 0, 0, 0o2755), script], [File(SHELL, 0, 0, 0o4755), script])
        self.assertEqual([(each.path, each.mode, each.interpreter) for each in made.world.files],
                         [(SHELL + "#2", 0o2755, None), (OTHER + "#2", 0o755, SHELL + "#2"),
                          (SHELL, 0o4755, None), (OTHER, 0o755, SHELL)])
        self.assertEqual(made.log, LOG.replace(b"/srv/x", b"/srv/x#2"))

    def test_a_name_that_is_taken(self) -> None:
        made = self.join([PLAIN, File(SU + "#2", 0, 0, 0o2755)], [SET_USER], LOG.replace(b"/srv/x", b"/usr/bin/su#3"))
        self.assertEqual(made.renamed, {SU: SU + "#4"})

    def test_the_other_form_of_a_log(self) -> None:
        log = (b"; execve\n100 execve /usr/bin/su = 0\n 100  execve /usr/bin/su  = EACCES\n"
               b"100 execve /usr/bin/sudo = 0\n")
        made = self.join([PLAIN], [SET_USER], log, form="script")
        self.assertEqual(made.log, log.replace(b"/usr/bin/su ", b"/usr/bin/su#2 "))

    def test_spellings(self) -> None:
        for name, shown in (("/opt/a\"b", rb'/opt/a\"b'), ("/opt/caf\xe9", rb"/opt/caf\303\251")):
            log = b'7 execve("' + shown + b'", [], NULL) = 0\n'
            made = self.join([], [File(name, 0, 0, 0o4755)], log)
            self.assertEqual(list(made.renamed), [name])
            self.assertNotEqual(made.log, log)
        for log in (b'7 execve("/usr/bin/su"..., [], NULL) = 0\n', b'7 write(1, "execve(\\"/usr/bin/su\\"", 9) = 9\n'):
            self.assertEqual(self.join([], [SET_USER], log).log, log)

    def test_mounts(self) -> None:
        world = World(mounts=[NOSUID])
        self.assertEqual(joined(world, b"", World(mounts=[NOSUID, Mount("b")]), True).world.mounts,
                         [NOSUID, Mount("b")])
        for mount in (Mount("nosuid"), Mount("x", space="box")):
            with self.assertRaises(Failure):
                joined(world, b"", World(mounts=[mount]), True)
