"""Connections cut at each place of a frame, and a clone that loses all of them in each of its stages."""

from scripts import *

# How long the first frames of the plainest clone are: INIT, the STAGE of two files, a block of eight pages.
INIT_SIZE, STAGE_SIZE, BLOCK_SIZE = 25, 64, 32_856
PLACES_OF_A_BLOCK = [0, 1, 4, 5, 24, 25, BLOCK_SIZE - 1, BLOCK_SIZE]
TASKS = 16


def plainest(*head):
    script = Script(*head)
    script.line("create 1 4", "created")
    script.line("set 0 1 7 6869", "committed 1")
    script.binlog = ["commit 0 0 1", "1 7 6869"]
    script.line("start", "started")
    script.line("task 0", "sent INIT")
    return script


def ends_complete(script):
    script.line("finish", "complete position 1")
    script.line("rows", "1 7 6869", "rows 1")


def cut_init():
    """The donor has a front of the INIT, or all of it. The task has no answer, and begins anew."""
    for kept in range(INIT_SIZE + 1):
        script = plainest()
        script.line(f"cut 0 {kept} 0", "cut")
        script.line("task 0", "lost 1")
        script.line("task 0", "sent INIT")
        script.line("serve 0", "answered STAGE 1" if kept == INIT_SIZE else "lost")
        ends_complete(script)
        yield f"init-cut-at-{kept}", script


def cut_stage():
    """The task has a front of the first STAGE, or all of it. With a front it begins anew."""
    for kept in range(STAGE_SIZE + 1):
        script = plainest()
        script.line("serve 0", "answered STAGE 1")
        script.line(f"cut 0 0 {kept}", "cut")
        script.line("task 0", "took STAGE" if kept == STAGE_SIZE else "lost 1")
        script.line("task 0", "sent EXECUTE" if kept == STAGE_SIZE else "sent INIT")
        ends_complete(script)
        yield f"stage-cut-at-{kept}", script


def cut_block():
    """The task has a front of the first block, or all of it. It comes back, in version 2 with what it took."""
    for version in (1, 2):
        for kept in PLACES_OF_A_BLOCK:
            script = plainest(f"version {version}")
            script.line("serve 0", "answered STAGE 1")
            script.line("task 0", "took STAGE")
            script.line("task 0", "sent EXECUTE")
            script.line("serve 0", "execute")
            script.line("serve 0", "sent PAGES 0 0")
            script.line(f"cut 0 0 {kept}", "cut")
            if kept == BLOCK_SIZE:
                script.line("task 0", "took PAGES 0 0")
            script.line("task 0", "lost 1")
            script.line("task 0", "sent REINIT")
            script.line("serve 1", "answered STAGE 1")
            script.line("task 0", "took STAGE")
            script.line("task 0", "sent EXECUTE")
            script.line("serve 1", "execute")
            script.line("serve 1", f"sent PAGES 0 {int(version == 2 and kept == BLOCK_SIZE)}")
            ends_complete(script)
            yield f"block-cut-at-{kept}-in-version-{version}", script


def serve_all(script, first, answer):
    """A step of the donor on each task's connection, from this one on; the answer may depend on the task."""
    for task in range(TASKS):
        script.line(f"serve {first + task}", answer(task) if callable(answer) else answer)


def execute_all(script, first):
    for task in range(TASKS):
        script.line(f"task {task}", "sent EXECUTE")
    serve_all(script, first, "execute")


def join_all(script, first, answer):
    """The first task has sent its first command on this connection; the others attach on those behind it."""
    script.line(f"serve {first}", answer)
    script.line("task 0", "took STAGE")
    for task in range(1, TASKS):
        script.line(f"task {task}", "sent ATTACH")
        script.line(f"serve {first + task}", answer)
        script.line(f"task {task}", "took STAGE")


def lose_all(script, first, finder, losses):
    """All connections are cut, and this task finds it. The others have none from then on."""
    for task in range(TASKS):
        script.line(f"cut {first + task} 0 0", "cut")
    script.line(f"task {finder}", f"lost {losses}")
    for task in range(1, TASKS):
        script.line(f"task {task}", "idle")
    script.line(f"cut {first} 0 0", "idle")
    script.line("task 0", "sent REINIT")


# Of the files of a system space and of a table with 1,024 buckets chunk 4 alone has one block.
FIRST_CHUNKS = list(range(TASKS))
NEXT_BLOCKS = [(chunk, 1) for chunk in range(TASKS) if chunk != 4] + [(16, 0)]


def lose_files(script):
    """Each task takes the first block of a chunk. What was taken isn't sent again."""
    script.line("task 0", "sent INIT")
    join_all(script, 0, "answered STAGE 1")
    execute_all(script, 0)
    serve_all(script, 0, lambda task: f"sent PAGES {FIRST_CHUNKS[task]} 0")
    for task in range(TASKS):
        script.line(f"task {task}", f"took PAGES {FIRST_CHUNKS[task]} 0")
    lose_all(script, 0, 0, 1)
    script.line("serve 1", "lost")
    join_all(script, 16, "answered STAGE 1")
    script.line("serve 2", "refused C7 2")
    execute_all(script, 16)
    serve_all(script, 16, lambda task: "sent PAGES {} {}".format(*NEXT_BLOCKS[task]))
    script.line("clean", "cleaned 3")
    script.line("advance", "ready 1")


def lose_pages(script):
    """One chunk, of three pages: one task is sent its block, the others an END, and all of that is lost."""
    script.line("task 0", "sent ACK")
    script.line("serve 16", "answered STAGE 2")
    script.line("task 0", "took STAGE")
    execute_all(script, 16)
    serve_all(script, 16, lambda task: "sent END" if task else "sent PAGES 0 0")
    lose_all(script, 16, 15, 2)
    join_all(script, 32, "answered STAGE 2")
    script.line("look", "position 1")
    script.line("advance", "ready 2")


def lose_redo(script):
    """One chunk, of one block, and another task that finds the loss."""
    script.line("task 0", "sent ACK")
    script.line("serve 32", "answered STAGE 3 lsn 8573 position 1")
    script.line("task 0", "took STAGE")
    execute_all(script, 32)
    serve_all(script, 32, lambda task: "sent END" if task else "sent REDO 0 0")
    lose_all(script, 32, 7, 3)
    join_all(script, 48, "answered STAGE 3 lsn 8573 position 1")
    script.line("advance", "ready 3")


def lose_done(script):
    """The answer to the last acknowledgement is lost, which is sent again then."""
    script.line("task 0", "sent ACK")
    script.line("serve 48", "answered STAGE 4 lsn 8573 position 1")
    lose_all(script, 48, 0, 4)
    script.line("serve 64", "answered STAGE 4 lsn 8573 position 1")
    script.line("task 0", "took STAGE")
    script.line("task 0", "sent ACK")
    script.line("serve 64", "answered STAGE 4 lsn 8573 position 1")
    script.line("task 0", "took STAGE")
    script.line("task 0", "complete position 1")
    script.line("serve 64", "exit")
    script.line("rows", "1 1 aa", "rows 1")
    script.completed(8573, 1, "21/21", "1/1", "1/1")


def cut_everything():
    script = Script("version 2", "tasks 16")
    script.line("create 1 1024", "created")
    script.line("set 0 1 1 aa", "committed 1")
    script.binlog = ["commit 0 0 1", "1 1 aa"]
    script.line("start", "started")
    script.line("task 15", "idle")
    for stage_is_lost in [lose_files, lose_pages, lose_redo, lose_done]:
        stage_is_lost(script)
    yield "each-connection-cut-in-each-stage", script


def cases():
    for group in [cut_init, cut_stage, cut_block, cut_everything]:
        yield from group()
