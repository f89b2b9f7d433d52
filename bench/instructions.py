"""The instructions that a program takes, by function and by group, as `valgrind --tool=callgrind` counts them."""
import collections
import re
import subprocess

# The first pattern that is found in a function's name decides its group; a name is a path, with its crate first.
GROUPS = (
    ('zeros', r'memset|bzero'),
    ('copies', r'memcpy|memmove|mempcpy'),
    ('memory', r'malloc|calloc|realloc|^free$|^cfree|^_int_|unlink_chunk|tcache|'
               r'^_*(arena_get|brk|sbrk|mmap|munmap|mremap)|rattle_alloc|^std_alloc|^std_heap'),
    ('base64', r'^(base64|kds_token::code)\b'),
    ('MD5', r'^md5'),
    ('command', r'^kds_json(_members)?::'),
    ('JSON', r'^(serde_json|json|fast_float|simdutf8|core::str::utf8)\b'),
    ('reply', r'^kds_(reply|reply_texts|session|head)::'),
    ('text', r'^(kds_lines|kcl_script|kcl_script_fields|kcl_journal|memchr|itoa|kds_base::number_text)\b'),
    ('values', r'^kds_base::'),
    ('machine', r'^(kds_(defs|service|stream|stream_logs|log|tree|rate|scale|token)|kcl_(world|table|book|leases)|'
                r'indexmap|hashbrown|arrayvec|circular_buffer)\b'),
    ('run', r'^(kcl_(sim|worker|worker_lists|consumer|take|sync|renew|hand|proc|defs)|kpl_frame|kds_(ends|cli\w*))\b'),
)


def group_of(name):
    return next((group for group, pattern in GROUPS if re.search(pattern, name)), 'other')


def counted(command, schedule, kind, count, environment=None):
    """The instructions of each function of this command over a schedule of this kind, which is written to this file."""
    profile = f'{schedule}.profile'
    with open(schedule, 'w') as text:
        text.writelines(line + '\n' for line in kind(count))
    with open(schedule, 'rb') as lines:
        subprocess.run(['valgrind', '--tool=callgrind', f'--callgrind-out-file={profile}', *command],
                       stdin=lines, check=True, stdout=subprocess.DEVNULL, stderr=subprocess.DEVNULL, env=environment)
    told = subprocess.run(['callgrind_annotate', '--threshold=100', '--auto=no', '--show-percs=no', profile],
                          check=True, text=True, capture_output=True).stdout
    found = collections.Counter()
    for taken, name in re.findall(r'^\s*([\d,]+)\s+\S*?:(\S.*?)(?: \[[^\]]*\])?$', told, re.M):
        found[name] += int(taken.replace(',', ''))
    return found
