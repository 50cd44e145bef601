#!/usr/bin/env python3
"""conversation.py [PROGRAM]: drives the engine through a day at the warehouse of carrier.txt, and prints what is said. PROGRAM is
lotrun (crates/lotrun/out/lotrun if not given). It answers each command at once, so that the next one can follow from the answer."""

import pathlib, subprocess, sys

examples = pathlib.Path(__file__).resolve().parent
program = sys.argv[1] if len(sys.argv) > 1 else examples.parent / 'crates' / 'lotrun' / 'out' / 'lotrun'
try:
    engine = subprocess.Popen([program], bufsize=0, stdin=subprocess.PIPE, stdout=subprocess.PIPE)
except OSError as error:
    sys.exit(f'cannot start {program}: {error.strerror}')


def ask(*rows):
    """Sends the rows of a command and gives back the answer, without its newline."""
    print(*(f'> {row}' for row in rows), sep='\n')
    try:
        engine.stdin.write('\n'.join(rows + ('',)).encode())
    except BrokenPipeError:
        pass  # the engine has ended; what it said at last is still there to read
    answer = engine.stdout.readline().decode().rstrip('\n')
    if not answer:
        sys.exit('the engine ended without an answer')
    print(f'< {answer}')
    return answer


def wanted(word, answer):
    """Stops unless the answer begins with this word. Gives back what stands behind the word."""
    first, _, rest = answer.partition(',')
    if first != word:
        sys.exit(f'the engine answered {answer or "nothing"} where {word} was wanted')
    return rest


# The net, a row `.` and the estimate are in the file; one more row `.` ends them.
wanted('started', ask(*(examples / 'carrier.txt').read_text().splitlines(), '.'))

# `ready` names the lowest thread that can step: the warehouse. It prepares to take one agent in, with a new thread, 1.
place = wanted('ready', ask('ready'))
wanted('silent', ask(f'step,{place},0,0'))

# A carrier's agent comes. It is to read a figure at the dock s1 and to put it into the warehouse s0.
root = wanted('brought', ask('bring', 'Q,0,read,1,s1,s2,!u0', 'Q,1,out,2,s0,u0', 'Q,2,nil', '.'))

# If the door lets it in at s0 under sandbox 0, it is taken in, and is then thread 1. The step names it by its root's line.
if ask(f'door,{root},0,0') == 'passes':
    wanted('performed', ask(f'step,1,0,{root}'))

# While the agent is at work it cannot be sent away (36): it makes a step before the next try.
while (answer := ask('withdraw')) == 'refused,36,0':
    wanted('performed', ask('step,1,0,0'))
wanted('withdrawn', answer)

# At the end of the commands the engine prints its state.
engine.stdin.close()
state = engine.stdout.read().decode()
wanted('state', state)
print(state, end='')
