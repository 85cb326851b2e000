"""The subcommand `inputs`."""
from __future__ import annotations

from argparse import Namespace

from rvlook.cli.opening import opened_monitored, options_from
from rvlook.errors import UsageError
from rvlook.finders.inputs.report import InputsOptions, show_inputs
from rvlook.image.variables import variables_of
from rvlook.symbolic.branch_models import BranchModels


def perform(arguments: Namespace) -> None:
    """Varies the inputs of an enclave."""
    if arguments.public and not arguments.at:
        raise UsageError("--public requires --at PLACE")
    if arguments.harts > 1:
        raise UsageError("inputs runs one hart; give the file finding_N.input of --scripts to races --harts 2")
    run, _, printer = opened_monitored(arguments)
    options = options_from(InputsOptions, arguments, expected=arguments.expect or ())
    show_inputs(run, variables_of(arguments.symbols, run.setup.image), printer, options, arguments.findings, BranchModels())
