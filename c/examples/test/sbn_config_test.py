"""Each fault of sbn_zmq's configuration and keys: what sbn_node and sbn_keys say of it, with file, line and cause.

    sbn_config_test.py PROGRAM .. KEYS      the command that runs sbn_node, and sbn_keys
"""
import stat
import subprocess
import sys
import tempfile
from pathlib import Path

from sbn_nodes import expect, fail, key_pair

NODE, KEYS = sys.argv[1:-1], sys.argv[-1]
PUBLIC, SECRET = key_pair()
OTHER = key_pair()[0]
ALPHA = f'{{ name = "alpha"; address = "tcp://10.0.0.1:5561"; key = "{PUBLIC}"; publishes = [0x0901]; }}'
BETA = f'{{ name = "beta"; address = "tcp://10.0.0.2:5561"; key = "{OTHER}"; receives = [0x0901]; }}'
IDS = ', '.join(hex(0x0901 + i) for i in range(33))


def peers(*groups):
    return 'peers = (\n' + ',\n'.join(groups) + '\n);\n'


def alpha(old, new):
    return peers(ALPHA.replace(old, new), BETA)


# A file's text, and what is said of it behind its name.
FAULTS = [
    ('', ': no peers'),
    ('age = 5000;\n', ': no peers'),
    (peers(ALPHA), ':1: no list of two or more peers: peers'),
    ('peers = 5;\n', ':1: no list of two or more peers: peers'),
    ('# a comment\npeers = (\n', ':3: syntax error'),
    ('age = -1;\n' + peers(ALPHA, BETA), ':1: no such setting, or no such value: age'),
    ('age = "5";\n' + peers(ALPHA, BETA), ':1: no such setting, or no such value: age'),
    ('\nhost = 1;\n' + peers(ALPHA, BETA), ':2: no such setting, or no such value: host'),
    ('age = 1;\nage = 2;\n' + peers(ALPHA, BETA), ':2: duplicate setting name'),
    (peers(ALPHA, '5'), ':3: no group of settings'),
    (peers(ALPHA, *[BETA.replace('beta', f'n{i}').replace('5561', f'{i}').replace(OTHER, key_pair()[0]) for i in range(8)]), ':10: more than 8 peers'),
    (peers(ALPHA, BETA, BETA), ':4: a name, address or key that another peer has'),
    (peers(ALPHA, BETA.replace('beta', 'alpha')), ':3: a name, address or key that another peer has'),
    (peers(ALPHA, BETA.replace('10.0.0.2', '10.0.0.1')), ':3: a name, address or key that another peer has'),
    (peers(ALPHA, BETA.replace(OTHER, PUBLIC)), ':3: a name, address or key that another peer has'),
    (alpha('name = "alpha"; ', ''), ':2: a peer without name'),
    (alpha('"alpha"', '""'), ':2: no text, or one too long: name'),
    (alpha('"alpha"', '"alpha0123456789A"'), ':2: no text, or one too long: name'),
    (alpha('"alpha"', '"al pha"'), ":2: a character that isn't printed: name"),
    (alpha('"alpha"', '5'), ':2: no text, or one too long: name'),
    (alpha('"alpha";', '"alpha"; name = "beta";'), ':2: duplicate setting name'),
    (alpha('publishes', 'publish'), ':2: no such setting: publish'),
    (alpha('tcp://10.0.0.1:5561', 'ipc://alpha'), ':2: a peer without address of tcp://'),
    (alpha('address = "tcp://10.0.0.1:5561"; ', ''), ':2: a peer without address of tcp://'),
    (alpha(PUBLIC, PUBLIC[:-1]), ':2: a peer without key of 40 characters'),
    (alpha(PUBLIC, PUBLIC[:-1] + '~'), ':2: a peer without key of 40 characters'),
    (alpha(f'key = "{PUBLIC}"; ', ''), ':2: a peer without key of 40 characters'),
    (alpha('[0x0901]', '0x0901'), ':2: no array, or more than 32 ids: publishes'),
    (alpha('[0x0901]', f'[{IDS}]'), ':2: no array, or more than 32 ids: publishes'),
    (alpha('0x0901', '0'), ':2: no message id, or one twice: publishes'),
    (alpha('0x0901', '0x2000'), ':2: no message id, or one twice: publishes'),
    (alpha('0x0901', '0x0901, 0x0901'), ':2: no message id, or one twice: publishes'),
    (alpha('0x0901', '"a"'), ':2: no message id, or one twice: publishes'),
    (alpha('0x0901', '0x1901'), ':2: commands stand in commands alone, not in publishes'),
    (alpha('publishes', 'commands'), ':2: commands stand in commands alone, not in commands'),
    ('plain = true;\n' + peers(ALPHA, BETA), ':3: plain links are for addresses of loopback, tcp://127.0.0.1:PORT'),
    ('plain = true;\n' + alpha('10.0.0.1', 'localhost'), ':3: plain links are for addresses of loopback, tcp://127.0.0.1:PORT'),
    ('plain = true;\n' + alpha('10.0.0.1', '127.0.0.1.de'), ':3: plain links are for addresses of loopback, tcp://127.0.0.1:PORT'),
    # A comment's tail is no setting, however long the comment is.
    ('# ' + 'x' * 600 + ' age = 1;\nage = x;\n' + peers(ALPHA, BETA), ':2: syntax error'),
    (peers(ALPHA.replace('alpha', 'gamma'), BETA), ': no peer alpha'),
]


def said(*words):
    run = subprocess.run(list(map(str, words)), capture_output=True, text=True, check=False, timeout=60)
    expect(run.returncode and not run.stdout, f'status {run.returncode}: {run.stdout}')
    return run.stderr


def check_files(folder, secret):
    file = folder / 'sbn.conf'
    for text, cause in FAULTS:
        file.write_text(text, encoding='ascii')
        found, want = said(*NODE, file, 'alpha', secret), f'sbn_node: {file}{cause}\n'
        if found != want:
            fail(f'{text}\n{found}, not {want}')
    expect(said(*NODE, folder / 'none', 'alpha') == f'sbn_node: {folder}/none: No such file or directory\n', 'no file')
    expect(said(*NODE, folder, 'alpha').startswith(f'sbn_node: {folder}'), 'a folder')
    file.write_text(peers(ALPHA, BETA), encoding='ascii')
    return file


def check_secrets(folder, file, secret):
    # What stands in the file of the secret key, its mode, and what is said of it.
    for text, mode, cause in (
            (SECRET, 0o644, 'no file, or others may open it (chmod 600)'), (SECRET, 0o660, 'no file, or others may open it (chmod 600)'),
            (SECRET[:-1], 0o600, 'no key of 40 characters'), (SECRET + 'x', 0o600, 'no key of 40 characters'), ('', 0o600, 'no key of 40 characters'),
            (key_pair()[1], 0o600, 'not the secret key to the public one of alpha')):
        secret.write_text(text, encoding='ascii')
        secret.chmod(mode)
        expect(said(*NODE, file, 'alpha', secret) == f'sbn_node: {secret}: {cause}\n', f'secret: {cause}')
    expect(said(*NODE, file, 'alpha') == 'sbn_node: alpha: no file of its secret key\n', 'no secret')
    expect(said(*NODE, file, 'alpha', folder) == f'sbn_node: {folder}: no file, or others may open it (chmod 600)\n', 'a folder as secret')
    expect(said(*NODE, file, 'alpha', folder / 'none') == f'sbn_node: {folder}/none: No such file or directory\n', 'no file of the secret')


def check_keys(folder):
    made = folder / 'made'
    run = subprocess.run([KEYS, made], capture_output=True, text=True, check=True)
    expect(len(run.stdout) == 41 and len(made.read_text(encoding='ascii')) == 41, f'sbn_keys: {run.stdout}')
    expect(stat.S_IMODE(made.stat().st_mode) == 0o600, 'sbn_keys: others may open the secret key')
    expect(said(KEYS, made) == f'sbn_keys: {made}: File exists\n', 'sbn_keys writes over a key')
    expect(said(KEYS).startswith('usage: '), 'sbn_keys without a file')


def main():
    with tempfile.TemporaryDirectory() as name:
        folder = Path(name)
        secret = folder / 'secret'
        secret.write_text(SECRET, encoding='ascii')
        secret.chmod(0o600)
        file = check_files(folder, secret)
        check_secrets(folder, file, secret)
        check_keys(folder)
    print(f'sbn_config_test passed: {len(FAULTS)} files')


main()
