"""What Nix's substituters have of what is to be built."""

from typing import List

from .folder import say, write_error
from .options import Options
from .process import Processes


def fetched_paths(said: str) -> List[str]:
    """The paths that Nix says it would fetch."""
    found = []
    is_listed = False
    for line in said.split("\n"):
        if "will be fetched" in line:
            is_listed = True
        elif is_listed and line.startswith("  /"):
            found.append(line.split()[0])
        else:
            is_listed = False
    return found


async def fetch(processes: Processes, options: Options) -> None:
    """Fetches what Nix would fetch to build the roots; what can't be fetched is built."""
    asked = [*options.of_nix(), "--option", "substitute", "true"]
    would = await processes.run(["nix-store", "--realise", "--dry-run", *asked, *options.roots])
    paths = fetched_paths((would.said + would.out).decode(errors="replace"))
    if not paths:
        return
    say(f"{len(paths)} paths are fetched from the substituters")
    fetched = await processes.run_over(["nix-store", "--realise", "--keep-going", *asked], paths)
    if fetched.status != 0:
        say("some of them were not:")
        write_error("\n".join(fetched.said.decode(errors="replace").rstrip().split("\n")[-5:]) + "\n")
