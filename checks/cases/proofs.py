"""Prints what is proved and what has to be believed, as 'make proofs' and 'make trusted' do."""
from checks import printed, texts
from checks.case import Case


class Proofs(Case):
    def test_clauses(self):
        """Each crate of the program has clauses, and they are counted."""
        text = printed.proofs(sorted(texts.crates()))
        self.holds("the clauses", text.endswith(" clauses") and "\n== mud_cli\n" in text)

    def test_definitions(self):
        text = printed.trusted()
        self.holds("the meaning of the outside", "crates/mud_world/specs/Calls.antt (1 definition," in text)
        self.holds("the definitions", text.endswith(" types of the code") and "\n== The program: " in text)

    def test_one_command(self):
        """Of each command less is believed than of all, and only what it is about."""
        for command in printed.commands():
            text = printed.trusted(command)
            self.holds(command, "\ncrates/mud_cli/specs/Runs.antt " in text and len(text) < len(printed.trusted()))
        self.holds("what 'hear' reads", "crates/dhcp_lldp/specs/Dhcp.antt" in printed.trusted("hear"))
        self.holds("what 'frames' doesn't", "crates/dhcp_lldp/" not in printed.trusted("frames"))
