"""Named mutants of the Makefile, scripts and documents: a file, a text in it, another text, and the test that must detect it."""

from install import cases

INSTALL = "scripts/install"
MUTANTS = {
    "no version is noted": ("Makefile", "note_version target/bin/$$name", ": target/bin/$$name", cases.make_builds_the_programs),
    "install always builds": ("Makefile", "install: $(PROGRAMS)", "install: programs", cases.install_builds_nothing),
    "no soname": ("Makefile", "-Wl,-soname,$(SONAME) ", "", cases.c_program_by_pkg_config),
    "the whole version as soname": ("Makefile", "$(firstword $(subst ., ,$(VERSION)))", "$(VERSION)", cases.c_program_by_pkg_config),
    "an empty shared library": ("Makefile", "-Wl,--whole-archive ", "", cases.c_program_by_pkg_config),
    "another version of the shared library": (INSTALL, "version=$(head -n 1 VERSION)", "version=3.1.4", cases.c_program_by_pkg_config),
    "programs of the checkout": (INSTALL, 'echo "755 lib/kodarfi/$name target/bin/$name"', ":", cases.programs_need_no_checkout),
    "no words": (INSTALL, "docs/explain.awk docs/refusals.tsv; do", "docs/explain.awk; do", cases.programs_need_no_checkout),
    "no version beside the program": (INSTALL, '[ ! -f "target/bin/$name.version" ] || echo', "true || echo", cases.programs_tell_their_version),
    "no batch": (INSTALL, "for name in register convert batch; do\n    echo \"755 lib", "for name in register convert; do\n    echo \"755 lib", cases.batch_needs_no_checkout),
    "scripts that cannot be run": (INSTALL, 'echo "755 bin/$name $name"', 'echo "644 bin/$name $name"', cases.installed_files_can_be_read),
    "the umask decides": (INSTALL, "umask 022\n", "", cases.umask_does_not_matter),
    "DESTDIR in the pkg-config file": (INSTALL, "prefix=$prefix\n", "prefix=$base$prefix\n", cases.destdir_is_only_where_files_go),
    "DESTDIR is left": (INSTALL, '[ -z "$base" ] || [ -e "$base" ] || echo /', ":", cases.destdir_is_only_where_files_go),
    "no version in the pkg-config file": (INSTALL, "Version: $version", "Version: 1", cases.pkg_config_file_tells_the_version),
    "headers are left": (INSTALL, 'mapfile -t names < <(LC_ALL=C sort -r -- "$list")', 'mapfile -t names < <(LC_ALL=C sort -r -- "$list" | grep -v include/)', cases.uninstall_leaves_nothing),
    "folders are left": (INSTALL, '[[ $name != */ ]] || rmdir', "true || rmdir", cases.uninstall_leaves_nothing),
    "folders of others are removed": (INSTALL, '[ ! -e "$base$folder" ]; do', "true; do", cases.uninstall_leaves_what_is_not_its_own),
    "an earlier list is forgotten": (INSTALL, '[ ! -f "$list" ] || cat -- "$list"; ', "", cases.uninstall_leaves_nothing),
    "the list is not written first": (INSTALL, "| write lib/kodarfi/files || exit 2", ">/dev/null", cases.full_disk_can_be_cleared),
    "a failed copy is passed over": (INSTALL, '2>/dev/null || fail "$base$prefix/$place cannot be written"', "2>/dev/null", cases.full_disk_can_be_cleared),
    "a part of a path is a path": (INSTALL, "[[ $2 == /* && ", "[[ ", cases.failure_is_one_line),
    "any name in the list is removed": (INSTALL, '|| fail "$list is damaged: $name"', "|| :", cases.failure_is_one_line),
    "no help": (INSTALL, "case ${1-} in -h | --help)", "case ${1-} in --help)", cases.help_is_printed),
    "a lost text is left for the end": ("docs/refusals.py", "    with open(1, \"w\", encoding=\"utf-8\", closefd=False) as out:\n        out.write(text)\n", "    print(text)\n", cases.lost_output_is_one_line),
    "another help in the manual": ("docs/convert.1", "old edition", "new edition", cases.manual_is_the_help),
    "an option less in the manual": ("docs/batch.1", "\n.B \\-\\-jobs N\n", "\n.B \\-\\-job N\n", cases.manual_is_the_help),
}
