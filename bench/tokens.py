"""Makes texts of at most 2^20 bytes, each of one form of statement, expression or declaration, and prints how many tokens each has.
Usage: tokens.py FOLDER [BYTES]. Each text is FOLDER/NAME.Mod; a line of output is the name, the tokens and the bytes."""
import os
import re
import sys

MOST = int(sys.argv[2]) if len(sys.argv) > 2 else 2**20
TOKEN = re.compile(r'[A-Za-z][A-Za-z0-9_]*|[0-9]+|:=|<=|>=|\.\.|\S')
USED = ('VAR x, y: LONGINT; b: BOOLEAN; s: SET; a: ARRAY 2, 2 OF LONGINT; '
        'PROCEDURE P; END P; PROCEDURE F(x: LONGINT): LONGINT; BEGIN RETURN x END F; '
        'PROCEDURE G(x, y: LONGINT); END G; ')


def filled(before, part, after):
    """The part as often as it has room between the other two."""
    return before + part * ((MOST - len(before) - len(after)) // len(part)) + after


def numbered(before, part, after):
    """The same with the part's number for each @."""
    parts, room, number = [], MOST - len(before) - len(after), 0
    while (one := part.replace('@', str(number))) and len(one) <= room:
        parts.append(one)
        room -= len(one)
        number += 1
    return before + ''.join(parts) + after


def statements(part):
    return filled(f'MODULE M; {USED}BEGIN ', part, ' END M.')


def expressions(before, part, after):
    """One statement in whose expression the part stands as often as it has room."""
    return filled(f'MODULE M; {USED}BEGIN {before}', part, f'{after} END M.')


def declarations(part, before='', after=''):
    return numbered(f'MODULE M; {before}', part, f'{after} END M.')


def texts():
    yield 'empty', statements(';')
    yield 'assign', statements('x:=1;')
    yield 'assign_variable', statements('x:=y;')
    yield 'call', statements('P;')
    yield 'call_arguments', statements('G(x,y);')
    yield 'call_function', statements('x:=F(x);')
    yield 'functions_nested', statements('x:=' + 'F(' * 90 + 'x' + ')' * 90 + ';')
    yield 'return', statements('RETURN;')
    yield 'if', statements('IF b THEN END;')
    yield 'if_call', statements('IF b THEN P END;')
    yield 'elsif', expressions('IF b THEN ', 'ELSIF b THEN ', 'END')
    yield 'while', statements('WHILE b DO END;')
    yield 'loop', statements('LOOP END;')
    yield 'loop_call', statements('LOOP P END;')
    yield 'block', statements('BEGIN END;')
    yield 'block_empty', statements('BEGIN;END;')
    yield 'for', statements('FOR x:=1 TO 2 DO END;')
    yield 'cases', numbered(f'MODULE M; {USED}BEGIN CASE x OF -1:', '|@:', ' END END M.')
    yield 'labels', numbered(f'MODULE M; {USED}BEGIN CASE x OF -1', ',@', ': END END M.')
    yield 'inc', statements('INC(x);')
    yield 'sum', expressions('x:=x', '+x', '')
    yield 'products', statements('x:=x*y*x*y*x;')
    yield 'relation', statements('b:=x<y;')
    yield 'not', statements('b:=' + '~' * 190 + 'b;')
    yield 'parentheses', statements('x:=' + '(' * 90 + 'x' + ')' * 90 + ';')
    yield 'negation', statements('x:=-x;')
    yield 'set', expressions('s:={x', ',x', '}')
    yield 'sets', statements('s:={x};')
    yield 'ranges', expressions('s:={1..2', ',1..2', '}')
    yield 'index', statements('a[1,1]:=1;')
    yield 'indices', statements('x:=' + 'a[1,' * 60 + '1' + ']' * 60 + ';')
    yield 'constants', declarations('a@=1;', 'CONST ')
    yield 'variables', declarations('v@:SET;', 'VAR ')
    yield 'list', declarations(',v@', 'VAR v', ':SET;')
    yield 'fields', declarations('f@:SET;', 'TYPE R=RECORD ', 'END;')
    yield 'empty_fields', declarations(';', 'TYPE R=RECORD ', ' END;')
    yield 'types', declarations('T@=SET;', 'TYPE ')
    yield 'records', declarations('T@=RECORD END;', 'TYPE ')
    yield 'pointers', declarations('T@=POINTER TO R;', 'TYPE R=RECORD END;')
    yield 'sections', declarations('VAR ')
    yield 'procedures', declarations('PROCEDURE p@;END p@;')
    yield 'parameters', declarations('x@:SET;', 'PROCEDURE P(', 'x:SET); END P;')


os.makedirs(sys.argv[1], exist_ok=True)
for name, text in texts():
    assert len(text) <= MOST, name
    with open(os.path.join(sys.argv[1], name + '.Mod'), 'w') as file:
        file.write(text)
    print(name, len(TOKEN.findall(text)), len(text))
