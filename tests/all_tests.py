"""All tests, in the order in which they are listed."""

from tests import (
    cases, command_line, mistakes, nodes, other_servers, readme, serve_attacks, serve_bounds, serve_config, serve_data, serve_epochs,
    serve_logs, serve_mends, serve_operators, serve_options, serve_rolls, serve_sessions, serve_starts,
)

MODULES = [
    readme, command_line, mistakes, serve_sessions, serve_operators, other_servers, serve_bounds, serve_options, serve_starts, serve_config,
    serve_epochs, serve_rolls, serve_data, serve_mends, serve_logs, nodes, serve_attacks, cases,
]
ALL = [test for module in MODULES for group in module.GROUPS for test in group.tests]
