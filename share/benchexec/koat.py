"""Tool-info module of koat for BenchExec: `<benchmark tool="koat">` with this folder in PYTHONPATH.

The options of a run definition are koat's words before the file, such as `analyse` or `best --pivots 20000`; without
options it is `best`. The result is `bounded`, `unknown`, or an error with its reason;
`<column title="total">total</column>` shows the bound on what all steps cost together: on their number, where no rule
has a cost.
"""

import benchexec.result as result
from benchexec.tools.template import BaseTool2

ENDS = {2: "words", 3: "file", 4: "output", 5: "out of memory", 6: "refused", 70: "no program", 127: "no toolchain"}


class Tool(BaseTool2):
    """koat, the runtime complexity analyser for integer transition systems."""

    REQUIRED_PATHS = ["."]

    def name(self):
        return "koat"

    def executable(self, tool_locator):
        return tool_locator.find_executable("koat", subdir="bin")

    def version(self, executable):
        return self._version_from_tool(executable, line_prefix="koat")

    def cmdline(self, executable, options, task, rlimits):
        return [executable, *(options or ["best"]), "--", task.single_input_file]

    def determine_result(self, run):
        status = run.exit_code.value
        if status in (0, 1):
            verdict = next((line.strip() for line in run.output if not line.startswith("fact ")), "")
            return verdict if verdict in ("bounded", "unknown") else result.RESULT_ERROR
        return f"{result.RESULT_ERROR} ({ENDS[status]})" if status in ENDS else result.RESULT_ERROR

    def get_value_from_output(self, output, identifier):
        """What stands behind a label of the report, such as `total` or `time 2`."""
        head = identifier + ": "
        return next((line[len(head):].strip() for line in output if line.startswith(head)), None)
