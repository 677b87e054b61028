"""What a batch prints while it runs: one line of progress, and faults, in place of all that Snakemake says.

Snakemake's own words are in its log, below .snakemake/log.
"""
import logging
import sys
import time

from snakemake.common import Mode

PATIENCE = 60  # seconds without a line, where lines can't be written over


class Progress:
    """Takes what Snakemake says, message by message."""

    def __init__(self, stream):
        self.stream, self.is_terminal, self.is_open = stream, stream.isatty(), False
        self.done, self.share, self.at = 0, 0, time.monotonic()

    def __call__(self, message):
        if message["level"] == "progress":
            # The last job only asks for all others.
            self.tell(min(message["done"], message["total"] - 1), message["total"] - 1)
        elif message["level"] in ("warning", "error") and message.get("msg"):
            self.say(plain(message["msg"]))

    def tell(self, done, total):
        """Says how many jobs are done: on a terminal on one line, and else each time that a tenth more is done."""
        if done == self.done:
            return
        self.done, share, now = done, 10 * done // total, time.monotonic()
        text = f"batch: {done} of {total} jobs done"
        if self.is_terminal:
            self.stream.write(f"\r\033[K{text}")
            self.is_open = True
            if done == total:
                self.close()
        elif share > self.share or now - self.at > PATIENCE:
            self.share, self.at = share, now
            self.stream.write(f"{text}\n")
        self.stream.flush()

    def say(self, text):
        """Prints a fault on a line of its own."""
        self.close()
        print(f"batch: {text}", file=self.stream, flush=True)

    def close(self):
        """Ends the line of progress."""
        if self.is_open:
            self.stream.write("\n")
            self.is_open = False


def plain(text):
    """What Snakemake says of a fault, without the places in its files."""
    lines = [line for line in text.splitlines() if line.strip() and not line.startswith(("  File ", "WorkflowError"))]
    return "\n".join(lines) or text


def begin(logger):
    """Prints progress in place of Snakemake's words, but where these are asked for, and on the machines of a cluster."""
    if logger.mode == Mode.default and not logger.dryrun and logger.logger.level > logging.DEBUG:
        logger.logger.removeHandler(logger.stream_handler)
        logger.log_handler.append(Progress(sys.stderr))
