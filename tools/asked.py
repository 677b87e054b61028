"""A command that is asked for the answers of a component: it is given the lines of its calls, and answers each with a line."""
import binascii
import hashlib
import json
import os
import re
import shlex
import shutil
import subprocess
from base64 import b64decode

from record import content_of

FORMS = '{}, {"content": BASE64}, {"value": NUMBER} or {"message": OBJECT}'
LOWEST, GREATEST = -(2**63), 2**63 - 1
LAST_SIGNAL = 64
WHOLE = re.compile(r"-?[0-9]{1,20}")


class Ended(ValueError):
    """A process that should have gone on, or ended well, with the status by which a shell tells of it: 128 and the signal that ended it."""

    def __init__(self, text, status):
        super().__init__(text)
        self.status = 128 - status if status < 0 else status


class Command:
    """The command of a component, as words: no shell is asked."""

    def __init__(self, text):
        try:
            self.words = shlex.split(text)
        except ValueError as error:
            raise ValueError(f"{text}: {error}") from None
        if not self.words:
            raise ValueError("an empty command")

    @property
    def sum(self):
        """What tells a command from others: its words, and what is in the files among them."""
        found = hashlib.sha256(repr(self.words).encode("utf-8", "surrogateescape"))
        for path in [shutil.which(self.words[0]) or self.words[0]] + self.words[1:]:
            if os.path.isfile(path):
                with open(path, "rb") as file:
                    found.update(hashlib.file_digest(file, "sha256").digest())
        return found.hexdigest()

    def answers(self, calls, count):
        """Asks about the calls whose lines are in a file, so many. Gives each line of an answer with its number, one by one."""
        with open(calls, "rb") as given:
            try:
                process = subprocess.Popen(self.words, stdin=given, stdout=subprocess.PIPE)
            except OSError as error:
                raise ValueError(f"{shlex.join(self.words)}: {error.strerror}") from None
        try:
            for number in range(1, count + 1):
                line = process.stdout.readline()
                if not line:
                    status = process.wait()
                    raise Ended(f"call {number} of {count}: no answer: the command {ended(status)}", killed(status))
                yield number, line
            if process.stdout.readline():
                raise ValueError(f"call {count} of {count}: a further line behind its answer")
            status = process.wait()
            if status:
                raise Ended(f"call {count} of {count}: behind its answer the command {ended(status)}", killed(status))
        finally:
            process.kill()
            process.wait()
            process.stdout.close()


def ended(status):
    """How a process ended."""
    return f"was ended by signal {-status}" if status < 0 else f"ended with status {status}"


def killed(status):
    """The status where it tells of a signal, as that of a shell whose command was ended by one also does, and else 1."""
    return status if status < 0 or 128 < status <= 128 + LAST_SIGNAL else 1


def whole_number(value):
    """The number that an answer has, as a number or as a text."""
    if isinstance(value, bool) or not isinstance(value, (int, str)):
        raise ValueError(f"{json.dumps(value)[:60]} is no whole number")
    if isinstance(value, str) and not WHOLE.fullmatch(value):
        raise ValueError(f"{json.dumps(value)[:60]} is no whole number")
    number = int(value)
    if not LOWEST <= number <= GREATEST:
        raise ValueError(f"{number} is no number of 64 bits with a sign")
    return number


def bytes_of(value):
    """The bytes that a text in base64 says."""
    try:
        return b64decode(value, validate=True)
    except (binascii.Error, TypeError, ValueError):
        raise ValueError(f"{json.dumps(value)[:60]} is not in base64") from None


class Encoder:
    """Makes the contents of answers. `encode` gives the bytes of a message of the channel's type, or says why there are none."""

    def __init__(self, encode):
        self.encode = encode

    def content(self, line):
        """The content that a line of an answer says, or None. A ValueError says what is wrong with it."""
        try:
            answer = json.loads(line)
        except (ValueError, RecursionError):
            raise ValueError(f"no JSON: {line.decode('utf-8', 'replace').rstrip()[:100]}") from None
        if not isinstance(answer, dict) or len(answer) > 1 or not answer.keys() <= {"content", "value", "message"}:
            raise ValueError(f"an answer is {FORMS}, and not {line.decode('utf-8', 'replace').rstrip()[:100]}")
        if "content" in answer:
            return bytes_of(answer["content"])
        if "value" in answer:
            return content_of(whole_number(answer["value"]))
        return self.encode(answer["message"]) if "message" in answer else None
