"""A program that answers lines, one by one."""
import subprocess


class Stopped(Exception):
    """Why a run does not go on: the program has ended, or has always something due."""


class Program:
    """The lines that it was given, with its answers."""

    def __init__(self, path, head):
        self.child = subprocess.Popen([str(path)], stdin=subprocess.PIPE, stdout=subprocess.PIPE, stderr=subprocess.DEVNULL)
        self.text = [head]
        self.child.stdin.write(f"{head}\n".encode())

    def ask(self, *lines):
        """The answers to these lines, which are given at once."""
        try:
            self.child.stdin.write("".join(f"{line}\n" for line in lines).encode())
            self.child.stdin.flush()
        except BrokenPipeError as error:
            raise Stopped("the program has ended") from error
        found = []
        for line in lines:
            answer = self.child.stdout.readline().decode().rstrip("\n")
            if not answer:
                raise Stopped(f"the program has ended, and did not answer {line[:100]}")
            self.text += [line, answer]
            found.append(answer.split(" "))
        return found

    def close(self):
        self.child.kill()
        self.child.stdout.close()
        try:
            self.child.stdin.close()
        except BrokenPipeError:
            pass
        self.child.wait()
