"""What the scripts of EEL are made of, for scripts of your own. It takes Python 3.10 or newer, and nothing else.

A script finds the package where PYTHONPATH names the folder in which it stands, tools/python of the sources and
PREFIX/share/eel/tools/python of what `eel --install PREFIX` put in place; or by sys.path.append of that.

    from eeltools.shown import Shown              # a program: its routines, blocks, edges and instructions
    from eeltools.runs import run_of              # a run: how often it carried out each word, and went which way
    from eeltools.call_costs import CallCosts     # calls between routines, and what they cost
    from eeltools.loops import loops              # the loops that went round
    from eeltools.instruction_mix import InstructionMix
    from eeltools.debug_lines import DebugLines   # the lines of its sources
    from eeltools.source_counts import SourceCounts
    from eeltools.report import Report            # what profile.py prints
    from eeltools.profile_json import ProfileJson

A run is what profile.py --counts kept, or `eel counts` or `eel visits` printed. What can't be done raises Refused. Of the
other modules those with a `main` are commands, and `entry` is how they are called."""

__all__ = ['Refused']


class Refused(Exception):
    """Why something can't be done, on one line, and the status with which a script ends by it."""

    def __init__(self, message: str, status: int) -> None:
        super().__init__(message)
        self.status = status
