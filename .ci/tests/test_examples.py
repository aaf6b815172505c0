"""The stored scripts, and the output that is stored next to each."""
import programs
from programs import ROOT, Commands
from seals import sealed

# How a script is run, by the ending of its output's name.
COMMANDS = {".out": ["replay"], ".flows": ["replay", "--flows"], ".heard": ["heard"]}


class Examples(Commands):
    # The program as each compiler builds it. A folder, such as dist, has only LLVM's.
    COMPILED = ["mg_bridge"] if programs.FOLDER else ["mg_bridge", "mg_bridge.by-rattle"]

    def test_output_is_as_stored(self):
        for script in sorted((ROOT / "examples").rglob("*.txt")):
            stored = {ending: script.with_suffix(ending) for ending in COMMANDS}
            stored = {ending: output for ending, output in stored.items() if output.exists()}
            self.assertTrue(stored, script)
            for ending, output in stored.items():
                for name in self.COMPILED:
                    self.ends(0, output.read_text(), "", *COMMANDS[ending], text=script.read_text(), name=name)

    def test_seals_change_no_output(self):
        for output in sorted((ROOT / "examples").rglob("*.out")):
            script = output.with_suffix(".txt").read_text()
            self.ends(0, output.read_text(), "", "replay", text=sealed(script, minute=5))
