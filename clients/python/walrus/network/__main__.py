"""Runs the commands of walrus-net. An interrupt or a missing module during the imports is one sentence, too."""
import sys


def main() -> int:
    try:
        from walrus.network.cli import commands

        return commands.main()
    except KeyboardInterrupt:
        print("walrus-net: interrupted", file=sys.stderr)
        return 130
    except ModuleNotFoundError as fault:
        if fault.name not in ("aiohttp", "cryptography"):
            raise
        advice = f"apt install python3-{fault.name}, or pip install {fault.name}"
        print(f"walrus-net: {fault.name}, which the network needs, is not installed: {advice}", file=sys.stderr)
        return 1


if __name__ == "__main__":
    sys.exit(main())
