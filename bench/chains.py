"""Makes texts of at most 2^20 bytes whose types build on one another in long chains, and two of statements alone.
Usage: chains.py FOLDER. Each text is FOLDER/NAME.Mod."""
import os
import sys

MOST = 2**20


def numbered(form, count, first=0):
    """The form for each number: @ is the number, < the one before it, > the one behind it, and % the one behind it in a circle."""
    def one(i):
        words = form.replace('@', str(i)).replace('<', str(i - 1)).replace('>', str(i + 1))
        return words.replace('%', str((i + 1) % count))
    return ' '.join(one(i) for i in range(first, count))


def types(declarations, rest=''):
    return f'MODULE M; TYPE {declarations} {rest}END M.'


def methods(count):
    return numbered('PROCEDURE m@; END m@;', count)


def texts():
    use = 'VAR x: A{}; BEGIN x := 1 '
    yield 'aliases', types('A0 = LONGINT; ' + numbered('A@ = A<;', 32000, 1), use.format(31999))
    yield 'aliases_back', types(numbered('A@ = A>;', 32000) + ' A32000 = LONGINT;', use.format(0))
    yield 'alias_circle', types(numbered('A@ = A%;', 32000))
    yield 'record_circle', types(numbered('R@ = RECORD a: R% END;', 16000))
    yield 'record_chain', types('R0 = RECORD a: LONGINT END; ' + numbered('R@ = RECORD a: R< END;', 16000, 1))
    yield 'record_chain_back', types(numbered('R@ = RECORD a: R> END;', 16000) + ' R16000 = RECORD a: LONGINT END;')
    yield 'bases', types('R0 = RECORD f0: LONGINT END; ' + numbered('R@ = RECORD (R<) f@: LONGINT END;', 16000, 1))
    yield 'bases_back', types(numbered('R@ = RECORD (R>) f@: LONGINT END;', 16000) + ' R16000 = RECORD END;')
    yield 'objects_fields', types('O0 = OBJECT VAR f0: LONGINT; END; ' + numbered('O@ = OBJECT (O<) VAR f@: LONGINT; END;', 16000, 1))
    yield 'objects_methods', types(
        'O0 = OBJECT PROCEDURE m0; END m0; END; ' + numbered('O@ = OBJECT (O<) PROCEDURE m@; END m@; END;', 13000, 1))
    yield 'objects_overrides', types(
        'O0 = OBJECT PROCEDURE m; END m; END; ' + numbered('O@ = OBJECT (O<) PROCEDURE m; END m; END;', 15000, 1))
    yield 'wide_base', types(f'B = OBJECT {methods(12000)} END; ' + numbered('O@ = OBJECT (B) END;', 17000))
    yield 'many_fields', types('R = RECORD ' + '; '.join(f'f{i}: LONGINT' for i in range(40000)) + ' END;')
    yield 'one_list', 'MODULE M; VAR ' + ', '.join(f'v{i}' for i in range(100000)) + ': LONGINT; END M.'
    yield 'statements', 'MODULE M; VAR x: LONGINT; BEGIN ' + 'x := 1; ' * 131000 + 'END M.'
    yield 'empty', 'MODULE M; BEGIN ' + ';' * (MOST - 30) + ' END M.'


os.makedirs(sys.argv[1], exist_ok=True)
for name, text in texts():
    assert len(text) <= MOST, name
    with open(os.path.join(sys.argv[1], name + '.Mod'), 'w') as file:
        file.write(text)
