"""The part `redis`: the module for Redis, tried longer than `make test` tries it."""
import os
import subprocess

from soak_parts.program import SEED, TOP, stop

LONGER = {"REDIS_SESSIONS": "3000", "REDIS_KILLS": "100", "REDIS_COMMANDS": "500000", "REDIS_SEED": str(SEED)}


def redis(room):
    """What bindings/check says of it; nothing is lost where there is no redis-server."""
    ran = subprocess.run([f"{TOP}/bindings/check", "redis"], env={**LONGER, **os.environ, "TMPDIR": room}, stdin=subprocess.DEVNULL)
    if ran.returncode:
        stop("bindings/check redis has failed")
