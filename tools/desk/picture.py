"""`desk picture`: a plan as a picture in SVG, with what `audit` finds of it."""

import argparse
import sys

from tools.desk.drawing import svg
from tools.desk.faults import GOOD
from tools.desk.planned import PLAN_HELP, planned
from tools.desk.scene import scene_of

DESCRIPTION = """Draws a plan, right or wrong, in the opening situation of the files: windows, estimates, landings, owed
separations, closures, the horizon, and what audit finds. The picture goes to the standard output. Debian's librsvg2-bin
makes PNG and PDF of it: rsvg-convert -z 2 plan.svg -o plan.png, and rsvg-convert -f pdf plan.svg -o plan.pdf."""


def add_parser(subparsers: argparse._SubParsersAction) -> None:
    """The words of the command."""
    words = subparsers.add_parser("picture", help="a plan as a picture in SVG", description=DESCRIPTION)
    words.add_argument("aerodrome", metavar="AERODROME")
    words.add_argument("flights", metavar="FLIGHTS")
    words.add_argument("plan", metavar="PLAN", nargs="?", help=PLAN_HELP)
    words.set_defaults(run=run)


def run(arguments: argparse.Namespace) -> int:
    """Runs the command."""
    it = planned(arguments.aerodrome, arguments.flights, arguments.plan)
    sys.stdout.write(svg(scene_of(it.aerodrome, it.flights, it.plan, it.findings)))
    return GOOD
