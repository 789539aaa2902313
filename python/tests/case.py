"""A test case whose servers on sockets of this host are closed when a test is done."""
import unittest
from typing import Any, Optional

from .network import Endpoint
from .server import Server


class Case(unittest.IsolatedAsyncioTestCase):
    async def serve(self, server: Optional[Server] = None, kind: Any = Endpoint, **settings: Any) -> Any:
        """Starts this server, or a new one with these settings, over UDP, or over TCP with StreamEndpoint as its kind."""
        endpoint = await kind.start(server or Server(**settings))
        self.addCleanup(endpoint.close)
        return endpoint
