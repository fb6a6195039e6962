"""Named mutants of what keeps and audits a register: a file, a text in it, another text, and the test that must detect it."""

from package import pages, registers, writers

JUDGED = "    if answer.refused:\n        raise answer.refused\n    proposal = forms.read(file)\n    heights = zip(proposal.guess, calls.check(proposal).solution)\n"
TRUSTED = "    proposal = forms.read(file)\n    heights = zip(proposal.guess, [0] * proposal.net.n)\n"
OPENED = '    judged = judge(file)\n    with opened(place, "rwc" if corrects is None else "rw") as register:\n'
JUDGED_LATE = '    with opened(place, "rwc" if corrects is None else "rw") as register:\n        judged = judge(file)\n'
ADDED = "(net.number, *row))\n"
COMMITTED = ADDED + '        register.execute("COMMIT")\n        register.execute("BEGIN IMMEDIATE")\n'
WHOSE = "if not is_empty(register) and register.execute(\"PRAGMA application_id\").fetchone()[0] != APPLICATION:"

MUTANTS = {
    "a proposal's numbers without judging them": ("register.py", JUDGED, TRUSTED, registers.refused_files_are_not_entered),
    "a register for a refused file": ("enter.py", OPENED, JUDGED_LATE, registers.refused_files_are_not_entered),
    "E for the entry's limit": ("register.py", "*calls.entry(X, E, proposal.s), X,", "calls.entry(X, E, proposal.s).value, E, X,", registers.entries_follow_from_files),
    "an entry's own s is another": ("register.py", "X, E, proposal.s) for mark", "X, E, proposal.t) for mark", registers.entries_follow_from_files),
    "a file without its last byte": ("enter.py", 'VERSION, "", file, judged.listing)', 'VERSION, "", file[:-1], judged.listing)', registers.entries_follow_from_files),
    "a seal without the version": ("register.py", "net.corrects or 0, net.version, ", "net.corrects or 0, ", registers.entries_follow_from_files),
    "a seal without the one before": ("register.py", "lines = (before, ", 'lines = ("", ', registers.entries_follow_from_files),
    "changes of entries": ("register.py", 'for act in ("UPDATE", "DELETE")}', 'for act in ("UPDATE", "DELETE") if (table, act) != ("entry", "UPDATE")}', registers.nothing_is_changed_or_removed),
    "removing of nets": ("register.py", 'for act in ("UPDATE", "DELETE")}', 'for act in ("UPDATE", "DELETE") if (table, act) != ("net", "DELETE")}', registers.nothing_is_changed_or_removed),
    "nets that replace others": ("register.py", "WHEN NEW.number IS NOT (", "WHEN NEW.number > (", registers.nothing_is_changed_or_removed),
    "entries that replace others": ("register.py", " OR NEW.mark IS NOT (SELECT COUNT(*) + 1 FROM entry WHERE net = NEW.net)", "", registers.nothing_is_changed_or_removed),
    "marks that the file has not": ("register.py", "    OR NEW.mark > (SELECT n FROM net WHERE number = NEW.net)\n", "", registers.nothing_is_changed_or_removed),
    "marks of earlier nets": ("register.py", "WHEN NEW.net IS NOT (SELECT MAX(number) FROM net) OR ", "WHEN ", registers.nothing_is_changed_or_removed),
    "V is not audited": ("audit.py", "zip(ENTRY[1:], stored[mark], right[mark])", "zip(ENTRY[3:], stored[mark][2:], right[mark][2:])", registers.audits_name_what_does_not_follow),
    "an audit that trusts what is stored": ("audit.py", "judged = judge(net.file)", "judged = Judged(net.n, net.s, net.listing, list(rows))", registers.audits_name_what_does_not_follow),
    "listings are not audited": ("audit.py", "if net.listing != judged.listing:", "if False:", registers.audits_name_what_does_not_follow),
    "the hash of a file is not audited": ("audit.py", "if sha256(net.file) != net.file_sha256:", "if False:", registers.audits_name_what_does_not_follow),
    "the hash of a listing is not audited": ("audit.py", "if sha256(net.listing) != net.listing_sha256:", "if False:", registers.audits_name_what_does_not_follow),
    "seals are not audited": ("audit.py", "if net.seal != seal_of(before, net):", "if False:", registers.audits_name_what_does_not_follow),
    "missing nets are passed over": ("audit.py", "[] if net.number == last + 1 else", "[] if True else", registers.audits_name_what_does_not_follow),
    "missing marks are passed over": ("audit.py", "for mark in right if mark not in stored)", "for mark in right if False)", registers.audits_name_what_does_not_follow),
    "marks too many are passed over": ("audit.py", "for mark in stored if mark not in right)", "for mark in stored if False)", registers.audits_name_what_does_not_follow),
    "marks without a net are passed over": ("audit.py", "WHERE net NOT IN (SELECT number FROM net)", "WHERE 0", registers.audits_name_what_does_not_follow),
    "an empty register is clean": ("audit.py", "faults if nets else [", "faults if True else [", registers.audits_name_what_does_not_follow),
    "a text for a file": ("audit.py", "if not isinstance(net.file, bytes) or", "if False or", registers.audits_name_what_does_not_follow),
    "a net corrected twice": ("audit.py", " or net.corrects in corrected)", ")", registers.audits_name_what_does_not_follow),
    "the schema is not audited": ("audit.py", "    faults = schema_faults(register)\n", "    faults: List[str] = []\n", registers.audits_look_at_the_triggers),
    "other triggers will do": ("register.py", "found[name][1] != SCHEMA[name]]", "False]", registers.audits_look_at_the_triggers),
    "missing triggers will do": ("register.py", "for name in SCHEMA if name not in found]", "for name in SCHEMA if False]", registers.audits_look_at_the_triggers),
    "an altered register takes more": ("enter.py", "    if faults:\n", "    if False:\n", registers.audits_look_at_the_triggers),
    "a file twice": ("enter.py", "return standing[0] if standing else None", "return None", registers.files_and_corrections),
    "a correction twice": ("enter.py", "    if again:\n", "    if False:\n", registers.files_and_corrections),
    "what was corrected comes again": ("enter.py", "if same and not standing:", "if False:", registers.files_and_corrections),
    "a correction of no net": ("enter.py", "(corrects,)).fetchone()[0]:", "(corrects,)).fetchone()[0] < 0:", registers.files_and_corrections),
    "two corrections of a net": ("enter.py", "if corrects in corrected_by:", "if False:", registers.files_and_corrections),
    "a net that corrects itself": ("enter.py", "if corrects in (net.number for net in same):", "if False:", registers.files_and_corrections),
    "a correction of net 0 is none": ("commands.py", "given.files[1], given.net)", "given.files[1], given.net or None)", registers.files_and_corrections),
    "a commit for each mark": ("enter.py", ADDED, COMMITTED, writers.kills_at_any_statement),
    "a register before its first net": ("enter.py", "            register.execute(statement)\n", '            register.execute(statement)\n        register.execute("COMMIT")\n        register.execute("BEGIN")\n', writers.kills_at_any_statement),
    "no commit": ("enter.py", '        register.execute("COMMIT")\n', "", writers.kills_at_any_moment),
    "one net of two is lost": ("enter.py", '        register.execute("COMMIT")\n', '        register.execute("COMMIT" if net.number % 2 or net.number < 9 else "ROLLBACK")\n', writers.writers_at_once_lose_nothing),
    "nobody waits for another": ("register.py", "timeout=PATIENCE", "timeout=0", writers.entries_wait_for_another),
    "a place is taken before it may be written": ("enter.py", '"BEGIN IMMEDIATE"', '"BEGIN"', writers.entries_wait_for_another),
    "words that a clerk does not know": ("register.py", 'if "locked" in said:', "if False:", writers.entries_wait_for_another),
    "a log beside the register": ("register.py", "journal_mode = DELETE", "journal_mode = WAL", writers.entries_are_on_the_disk),
    "a folder that is not synchronized": ("register.py", "synchronous = EXTRA", "synchronous = NORMAL", writers.entries_are_on_the_disk),
    "any database will do": ("register.py", WHOSE, "if False:", writers.what_cannot_be_done_is_reported),
    "a device for a register": ("register.py", "if os.path.lexists(place) and not os.path.isfile(place):", "if False:", writers.what_cannot_be_done_is_reported),
    "an audit makes a register": ("audit.py", 'opened(place, "rw")', 'opened(place, "rwc")', writers.what_cannot_be_done_is_reported),
    "an empty file is clean": ("audit.py", "        if is_empty(register):\n", "        if False:\n", writers.what_cannot_be_done_is_reported),
    "SQLite's errors are tracebacks": ("register.py", "except (sqlite3.Error, UnicodeDecodeError) as error:", "except UnicodeDecodeError as error:", writers.what_cannot_be_done_is_reported),
    "SQLite's words are always text": ("register.py", "except (sqlite3.Error, UnicodeDecodeError) as error:", "except sqlite3.Error as error:", registers.damage_is_reported),
    "the database's own check is left out": ("audit.py", 'if row[0] != "ok"]', "if False]", registers.damage_is_reported),
    "an audit with faults has status 0": ("__main__.py", "        put(error.text.encode())\n", "        put(error.text.encode())\n        return 0\n", writers.lost_words_lose_no_entry),
    "another word than the clerk's page": ("enter.py", "the first of a new register", "the first of a new one", pages.clerks_page_prints_what_it_says),
    "another word than the office's page": ("audit.py", "by its file\"\n\n\ndef", "by the file\"\n\n\ndef", pages.offices_page_prints_what_it_says),
    "names as they are": ("enter.py", "{shown(net.name)}", "{net.name}", writers.lost_words_lose_no_entry),
    "names in UTF-8 alone": ("enter.py", 'os.fsencode(name).decode("utf-8", "backslashreplace")', "name", writers.lost_words_lose_no_entry),
}
