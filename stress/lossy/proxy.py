#!/usr/bin/env python3
"""A bad network before a server on the loopback address: `proxy.py PORT SERVER SHARE [FIRST]`.

SHARE is the share of calls that it spoils: half of them reach the server late, by twice the time that the client has for a call (LOSSY_SECONDS, else 50 ms),
and of the others the answer is dropped. With FIRST only requests that begin with it are calls, so that a connection can be made.
"""
import asyncio
import os
import random
import sys

DELAY = 2 * float(os.environ.get("LOSSY_SECONDS", 0.05))
port, server, share = int(sys.argv[1]), int(sys.argv[2]), float(sys.argv[3])
first = sys.argv[4].encode() if len(sys.argv) > 4 else b""


async def serve(from_client, to_client):
    from_server, to_server = await asyncio.open_connection("127.0.0.1", server)
    is_dropped = False

    async def send_requests():
        nonlocal is_dropped
        try:
            while data := await from_client.read(65536):
                chance = random.random() if data.startswith(first) else 1
                is_dropped = share / 2 <= chance < share
                if chance < share / 2:
                    await asyncio.sleep(DELAY)
                to_server.write(data)
                await to_server.drain()
        finally:
            to_server.close()

    async def send_answers():
        try:
            while data := await from_server.read(65536):
                if not is_dropped and not to_client.is_closing():
                    to_client.write(data)
        finally:
            to_client.close()

    await asyncio.gather(send_requests(), send_answers(), return_exceptions=True)


async def main():
    listening = await asyncio.start_server(serve, "127.0.0.1", port)
    await listening.serve_forever()


asyncio.run(main())
