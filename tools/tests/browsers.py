"""A page in a browser without a screen that tells what it did, for pages that take their time."""
import http.server
import subprocess
import tempfile
import threading
import unittest

from places import BROWSER


class Server(http.server.BaseHTTPRequestHandler):
    """Gives the page, and takes what it posts to `said`."""

    def do_GET(self):
        data = self.server.page if self.path == "/" else b""
        self.send_response(200 if data else 404)
        self.send_header("Content-Type", "text/html; charset=utf-8")
        self.end_headers()
        self.wfile.write(data)

    def do_POST(self):
        self.server.said = self.rfile.read(int(self.headers["Content-Length"])).decode()
        self.send_response(204)
        self.end_headers()
        self.server.has_said.set()

    def log_message(self, *_):
        pass


def said_by(page, words=""):
    """What a page posts to `said`. On a machine that is too busy the test is skipped."""
    with http.server.ThreadingHTTPServer(("127.0.0.1", 0), Server) as server, tempfile.TemporaryDirectory() as folder:
        server.page, server.said, server.has_said = page.encode(), None, threading.Event()
        threading.Thread(target=server.serve_forever, daemon=True).start()
        options = ["--headless=new", "--no-sandbox", "--disable-gpu", "--remote-debugging-port=0", f"--user-data-dir={folder}"]
        run = [BROWSER, *options, f"http://127.0.0.1:{server.server_port}/{words}"]
        with subprocess.Popen(run, stdout=subprocess.DEVNULL, stderr=subprocess.DEVNULL) as browser:
            server.has_said.wait(240)
            browser.terminate()
        server.shutdown()
    if server.said is None:
        raise unittest.SkipTest("the browser said nothing within four minutes")
    return server.said
