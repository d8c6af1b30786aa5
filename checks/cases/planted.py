"""Edits texts by checks/planted.list, and builds the program unproved with wrong bodies of plants/: whether the named check refuses each.

Each program has several wrong bodies, far from one another, so that each check meets one alone. It takes some minutes a program.
"""
import os
import shutil
import subprocess
import tempfile

from checks import texts, unproved
from checks.case import Case, ProgramCase, cases_of, needs
from checks.cases.lent_views import copy_crates
from checks.program import PROGRAM

EDITS = {line.split("\t")[0]: line.replace("\\n", "\n").replace("\\t", "\t").split("\t", 4)[1:]
         for line in texts.lines("checks/planted.list") if not line.startswith("#")}

PROGRAMS = {
    "first": {"dhcp_lldp/order_not_looked_at": "examples.lldp", "http_requests/close_ignored": "sessions.connection-ends",
              "run_words/port_65536_taken": "faulty-runs.unlisted", "flow_table/each_connection_begins_the_generation": "connections.memory",
              "keep_sqlite/stamp_taken_away_behind_a_reading": "stopped-stores.openings", "read_buffer/failed_read_as_end": "failing-calls.replay_in_memory",
              "frame_view/ninth_extension_walked": "hostile-inputs.extensions", "run_captures/offset_forgotten": "hostile-inputs.frames",
              "bind_book/ended_address_counts": "sessions.limits-of-bindings", "mud_file/hours_169_taken": "examples.usage_edits"},
    "second": {"run_packets/others_left_out": "examples.many_peers", "console_bodies/prefix_dropped": "sessions.lengths",
               "run_desk/bad_item_told_as_bad_capture": "faulty-runs.bad_item", "mud_cli/failed_write_ignored": "faulty-runs.folders",
               "flow_table/generations_change_places_at_the_turn": "connections.memory",
               "keep_sqlite/another_path_kept": "stopped-stores.other_files", "mud_desk/thing_of_version_1_left": "examples.judge",
               "dns_snoop/first_answer_alone": "examples.resolvers", "rule_export/peer_on_the_other_side": "exported-lists.first_store",
               "console/one_connection_served": "real-clients.going_away"},
}


def checked(check, top, program):
    """The status of a check in the repository at this top, and what it says of the program."""
    ran = subprocess.run([top + "/checks/run", check], env={**os.environ, "MUD": program}, stdout=subprocess.PIPE, stderr=subprocess.STDOUT, check=False)
    return ran.returncode, ran.stdout.decode("utf-8", "replace")


def is_refused(check, status, said):
    return status == 1 and "left out" not in said and f"\n{check}" in "\n" + said


@cases_of(EDITS)
class Edited(Case):
    @classmethod
    def setUpClass(cls):
        cls.folder = tempfile.mkdtemp()
        cls.addClassCleanup(shutil.rmtree, cls.folder)
        shutil.copytree(texts.HERE, cls.folder + "/top", ignore=shutil.ignore_patterns(".git", "out"))

    def each(self, name):
        (check, path, old, new), text = EDITS[name], texts.read(EDITS[name][1])
        self.assertEqual(1, text.count(old), f"{path} doesn't have this text once: {old}")
        for now in (text, text.replace(old, new)):
            with open(f"{self.folder}/top/{path}", "w", encoding="utf-8", errors="surrogateescape") as file:
                file.write(now)
            status, said = checked(check, self.folder + "/top", os.path.abspath(PROGRAM))
            if now == text:
                self.note(f"{check} without the edit", 0, status)
        self.holds(f"{check} with the edit", is_refused(check, status, said), said[-600:])
        shutil.copy(path, f"{self.folder}/top/{path}")


@needs("rt", "gcc")
@cases_of(PROGRAMS)
class Planted(ProgramCase):
    alone = True

    def each(self, name):
        copy_crates(texts.crates(), self.folder)
        with open(self.path("crates.txt"), "w", encoding="utf-8") as rows:
            rows.write(texts.read("crates.txt"))
        for plant in PROGRAMS[name]:
            for path, text in texts.Edit(f"plants/{plant}.edit").applied().items():
                with open(self.path(path), "w", encoding="utf-8") as file:
                    file.write(text)
        unproved.build(self.folder, self.path("mud"))
        for plant, check in PROGRAMS[name].items():
            status, said = checked(check, texts.HERE, self.path("mud"))
            self.holds(plant, is_refused(check, status, said), f"{check} takes it:\n{said[-600:]}")
