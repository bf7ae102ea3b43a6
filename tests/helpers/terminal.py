"""What a job shows on a terminal that is its standard error."""
import concurrent.futures
import os
import pty
import tty


def on_terminal(case, *words, text="", replies=None, env=None):
    """Runs the program with its standard error on a terminal, to its end or until it has printed so
    many replies. Its status, its output, and what the terminal shows."""
    terminal, inner = pty.openpty()
    tty.setraw(inner)
    with concurrent.futures.ThreadPoolExecutor(1) as pool, open(terminal, "rb", 0) as screen:
        with case.start(*words, stderr=inner, env=env) as running:
            os.close(inner)
            shown = pool.submit(read_all, screen)
            if replies is None:
                out = case.finish(running, text).out
            else:
                out = "".join(running.stdout.readline().decode() for _ in range(replies))
                running.kill()
        return running.returncode, out, shown.result()


def read_all(screen):
    """What a terminal shows, to the end. The system reports that as an error."""
    shown = b""
    try:
        while part := screen.read(4096):
            shown += part
    except OSError:
        pass
    return shown.decode()
