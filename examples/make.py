#!/usr/bin/env python3
"""Writes the example sheets beside this file, from the descriptions below. `make.py --check` only compares.

A condition is an input's name, ('not', c), ('and', a, b) or ('or', a, b). Each state but the first gets its transition
home (NOT the first input, priority 0, no wait) before those that are listed, so that a description lists the others only.
"""
import os
import sys


def bits(value, width):
    return format(value, f'0{width}b')


def condition(c, inputs):
    if isinstance(c, str):
        return '00' + bits(inputs.index(c), 4)
    tag = {'not': '01', 'and': '10', 'or': '11'}[c[0]]
    return tag + ''.join(condition(part, inputs) for part in c[1:])


def sheet(inputs, outputs, states, transitions):
    names = list(states)
    home = [(state, names[0], 0, 0, ('not', inputs[0])) for state in names[1:]]
    listed = home + transitions
    text = bits(len(names) - 1, 5) + bits(len(inputs) - 1, 4) + bits(len(outputs) - 1, 4) + bits(len(listed) - 1, 7)
    for true in states.values():
        text += ''.join('1' if output in true else '0' for output in outputs)
    for source, destination, priority, wait, c in listed:
        text += bits(names.index(source), 5) + bits(names.index(destination), 5) + bits(priority, 7) + bits(wait, 24)
        text += condition(c, inputs)
    text += '0' * (-len(text) % 8)
    return bytes(int(text[i:i + 8], 2) for i in range(0, len(text), 8))


NEITHER = ('not', ('or', 'A', 'B'))

TWO_CONTACT = dict(
    inputs=['Activate', 'A', 'B'],
    outputs=['activity', 'Ready', 'EquivalentOut', 'Error'],
    states={
        'Idle': ['activity'],
        'Init': ['Ready'],
        'Wait for A': ['Ready'],
        'Wait for B': ['Ready'],
        'Error 1': ['Ready', 'Error'],
        'Error 2': ['Ready', 'Error'],
        'From Active Wait': ['Ready'],
        'Error 3': ['Ready', 'Error'],
        'Enabled': ['Ready', 'EquivalentOut'],
    },
    transitions=[
        ('Idle', 'Init', 0, 0, 'Activate'),
        ('Init', 'Enabled', 1, 0, ('and', 'A', 'B')),
        ('Init', 'Wait for A', 2, 0, 'B'),
        ('Init', 'Wait for B', 3, 0, 'A'),
        ('Wait for A', 'Error 1', 1, 100, 'Activate'),
        ('Wait for A', 'Init', 2, 0, ('not', 'B')),
        ('Wait for A', 'Enabled', 3, 0, 'A'),
        ('Wait for B', 'Error 2', 1, 100, 'Activate'),
        ('Wait for B', 'Init', 2, 0, ('not', 'A')),
        ('Wait for B', 'Enabled', 3, 0, 'B'),
        ('Error 1', 'Init', 1, 0, NEITHER),
        ('Error 2', 'Init', 1, 0, NEITHER),
        ('Error 3', 'Init', 1, 0, NEITHER),
        ('From Active Wait', 'Error 3', 1, 100, 'Activate'),
        ('From Active Wait', 'Init', 2, 0, NEITHER),
        ('Enabled', 'Init', 1, 0, NEITHER),
        ('Enabled', 'From Active Wait', 2, 0, ('not', ('and', 'A', 'B'))),
    ])

# A guard door with a lock. The drive may run only behind a locked door; a request to open stops it first.
DOOR = dict(
    inputs=['Activate', 'Request', 'Closed', 'Standstill'],
    outputs=['activity', 'Run', 'Unlock', 'Alarm'],
    states={
        'Off': ['activity'],
        'Open': ['Unlock'],
        'Locked': ['Run'],
        'Stopping': [],
        'Forced': ['Alarm'],
        'Too slow': ['Alarm'],
    },
    transitions=[
        ('Off', 'Open', 0, 0, 'Activate'),
        ('Open', 'Locked', 1, 200, ('and', 'Closed', ('not', 'Request'))),
        ('Locked', 'Forced', 1, 0, ('not', 'Closed')),
        ('Locked', 'Stopping', 2, 0, 'Request'),
        ('Stopping', 'Forced', 1, 0, ('not', 'Closed')),
        ('Stopping', 'Open', 2, 0, 'Standstill'),
        ('Stopping', 'Too slow', 3, 5000, 'Activate'),
        ('Forced', 'Open', 1, 0, ('and', 'Closed', 'Request')),
        ('Too slow', 'Open', 1, 0, 'Standstill'),
    ])

if __name__ == '__main__':
    folder = os.path.dirname(os.path.abspath(__file__))
    for name, described in [('two-contact.sheet', TWO_CONTACT), ('door.sheet', DOOR)]:
        made = sheet(**described)
        path = os.path.join(folder, name)
        if '--check' not in sys.argv:
            with open(path, 'wb') as file:
                file.write(made)
        with open(path, 'rb') as file:
            if file.read() != made:
                sys.exit(f'{name} is not what make.py makes')
        print(f'{name}: {len(made)} bytes')
