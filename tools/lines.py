"""Lines and words at the bounds of the grammar, and a byte away: what the built program has to say of them.

Each was told by hand, or by trying each prefix of a line against the grammar; `tools/rows` gives them to the program.
"""
import json

# Events, each with the length of the longest beginning with which some event begins, or None where it is an event.
EVENTS = [
    ("format 16", None),
    ("activate s0 65535", None),
    ("append abcdefghijklmnop -", None),
    ("trim s0 e4294967295n0", None),
    ("deliver 999999999999", None),
    ("flow 1000000", None),
    ("open r0 1 e0n1 e4294967295n4294967295", None),
    ("tick 10 65535", None),
    ("fail 16 1000000", None),
    ("tear 3 4 0f", None),
    ("regfail 100 undone", None),
    ("calm", None),
    ("calm ", 4),
    ("calmly", 4),
    ("cal", 3),
    ("ca lm", 2),
    ("deliver 01", 9),
    ("format 17", 8),
    ("append a 6", 10),
    ("append a 6A", 10),
    ("append  a 6a", 7),
    ("activate abcdefghijklmnopq 1", 25),
    ("trim a e1n4294967296", 19),
    ("trim a e01n1", 9),
    ("tear 1 1 o1", 10),
    ("regfail 1 d", 11),
    ("activate s0 6553n5", 16),
    ("append s0 00fuf10", 13),
    ("retry  s", 6),
    ("drop As9", 5),
    ("deliver ", 8),
    ("open r0 1 e0n1 e4294967295n44294967295", 36),
    ("fail 16 10020000", 14),
    ("tear 3 4 0ff", 11),
    ("set 1 2 0 1,4", None),
    ("set 65535 16 3 16", None),
    ("set 1 2 0 1,1", 13),
    ("set 1 2 0 1,10", None),
    ("set 1 2 0 2,1", 13),
    ("set 1 2 0 2,1 ", 13),
    ("set 1 2 0 1,1,", 13),
    ("set 1 2 0 1,", 12),
    ("set 1 2 0 ", 10),
    ("set 1 2 0", 9),
    ("set 1 2 0 0", 10),
    ("set 1 2 0 01", 10),
    ("set 1 2 0 17", 11),
    ("set 1 2 0 1,17", 13),
    ("set 1 2 0 16,", 12),
    ("set 1 2 0 3,2", 12),
    ("set 1 2 0 12,11", 14),
    ("set 1 2 0 12,1,", 14),
    ("set 0 2 0 1", 4),
    ("set 65536 2 0 1", 8),
    ("set 1 0 0 1", 6),
    ("set 1 17 0 1", 7),
    ("set 1 2 4 1", 8),
    ("set 1 2 00 1", 9),
    ("set 1 2 0 1 4", 11),
    ("set 1 2 0 1, 4", 12),
    ("set 1 2 0 ,1", 10),
    ("sets", 3),
    ("replace 4 3 1", None),
    ("replace 16 16 65535", None),
    ("replace 4 3", 11),
    ("replace 4 17 1", 11),
    ("replace 0 3 1", 8),
    ("replace 4 3 65536", 16),
    ("replace 4  3 1", 10),
    ("replaces", 7),
    ("batch a -", None),
    ("batch a 01,-,00ff", None),
    ("batch a ", 8),
    ("batch a ,01", 8),
    ("batch a 0,01", 9),
    ("batch a 01,", 11),
    ("batch a 01,,", 11),
    ("batch a --", 9),
    ("batch a -,0", 11),
    ("batch a 01, 02", 11),
    ("batch a 01 02", 10),
    ("openone r 1 e1n1 e1n2", None),
    ("openmsgs q 65535 e0n1 e4294967295n4294967295", None),
    ("openonce", 6),
    ("openmsg r 1 e1n1 e1n1", 7),
    ("openmsgs r 0 e1n1 e1n1", 11),
]

NODE = '{"nodes":[1,2,3],"logs":[{"id":1,"set":[1,2,3],"r":2}]}'
LOGS = '{"nodes":[1],"logs":[{"id":1,"set":[1],"r":1},{"id":65535,"set":[1],"r":1}]}'

# Configurations that are refused, and which part and value is said to be at fault.
CONFIGURATIONS = [
    ("{", "it isn't JSON"),
    ("[]", "the whole isn't an object of nodes and logs alone"),
    ('{"nodes":[1],"logs":[],"more":1}', "the whole isn't an object of nodes and logs alone"),
    ('{"nodes":[],"logs":0}', "the length of nodes is 0"),
    ('{"nodes":[1,1],"logs":0}', "one of nodes is 1"),
    ('{"nodes":[17],"logs":0}', "one of nodes is 17"),
    ('{"nodes":[1.0],"logs":0}', "one of nodes isn't a whole number"),
    ('{"nodes":[1],"logs":[]}', "the length of logs is 0"),
    ('{"nodes":[1],"logs":[{"id":65536}]}', "one of logs isn't an object"),
    ('{"nodes":[1],"logs":[{"id":65536,"set":[],"r":0}]}', "id is 65536"),
    ('{"nodes":[1],"logs":[{"id":1,"set":[2],"r":0}]}', "one of set is 2"),
    ('{"nodes":[1,2,3],"logs":[{"id":1,"set":[1,2,3],"r":4}]}', "r is 4"),
    ('{"nodes":[1],"logs":[{"id":1,"set":[1],"r":1,"extras":4}]}', "extras is 4"),
    ('{"nodes":[1,2,3],"logs":[{"id":1,"set":[1,2,3],"r":2},{"id":1,"set":[1,2,3],"r":2}]}', "the log 1 is there twice"),
]

# Words that are no command, and a part of the reason.
WORDS = [
    ("-- replay", ""),
    ("replay replay", "replay"),
    ("exercise --seed 18446744073709551616 --events 0", "--seed isn't a number from 0 to 18446744073709551615"),
    ("exercise --seed 1 --events 100001", "--events isn't a number from 0 to 100000"),
    ("exercise --seed 01 --events 1", "--seed isn't a number"),
    ("exercise --seed +1 --events 1", "--seed isn't a number"),
    ("exercise --seed 1 --seed 1 --events 1", ""),
    ("exercise --seed 1", ""),
    ("help", ""),
    ("--help", ""),
    ("--version", ""),
    ("", ""),
]

# The same of `node` over three nodes, behind its configuration, store and register.
NODES = [
    ("--id 4 --port 1 --turns 9", "--id is 4, which isn't one of the configuration's nodes"),
    ("--id 0 --port 1 --turns 9", "--id isn't a number"),
    ("--id 01 --port 1 --turns 9", "--id isn't a number"),
    ("--id 1 --port 65536 --turns 9", "--port isn't a number"),
    ("--id 1 --turns 9", "one of --port and --listen has to be given"),
    ("--id 1 --port 1 --listen 127.0.0.1:1 --turns 9", "--port and --listen can't be given at once"),
    ("--id 1 --listen a:1 --listen a:1 --turns 9", ""),
    ("--id 1 --at {} --turns 9", ""),
    ("--id 1 --port 1 --turns 0", "--turns isn't a number"),
    ("--id 1 --port 1 --turns 1000000001", "--turns isn't a number"),
    ("--id 1 --port 1", "one of --turns and --peers has to be given"),
    ("--id 1 --port 1 --turns 9 --idle 9", "--idle can't be given without --peers"),
    ("--id 1 --port 1 --peers 1", "--peers isn't a number from 2 to 1000"),
    ("--id 1 --port 1 --peers 1001", "--peers isn't a number from 2 to 1000"),
    ("--id 1 --port 1 --peers 2 --idle 0", "--idle isn't a number from 1 to 86400"),
    ("--id 1 --port 1 --peers 2 --idle 86401", "--idle isn't a number from 1 to 86400"),
    ("--id 1 --port 1 --peers 2 --turns 0", "--turns isn't a number from 1 to 1000000000"),
    ("--id 1 --port 1 --peers", ""),
    ("--id 1 --port 1 --turns 9 more", ""),
    ("--id 1 --port 1 --turns 9 --help", ""),
    ("--id 1 --port 1 --turns 9 --format --format", ""),
    ("--id 1 --port 1 --turns 9 --format=true", ""),
    ("--id 1 --port 1 --turns 9 --quiet --quiet", ""),
    ("--id 1 --port 1 --peers 2 --quiet=true", ""),
    ("--id 1 --port 1 --turns 9 --store t", ""),
]

# Texts that are no address, of any port.
ADDRESSES = [
    "", "127.0.0.1", "127.0.0.1:", "127.0.0.1:65536", "127.0.0.1:-1", "10.0.0.300:1", "1.2.3:1", "010.0.0.1:1", "0.0.0.0.0:1", "10.0.0.1 :1",
    "::1", "::1:1", "[::1]", "[::1]:", "[::1:1", "::1]:1", "[::g]:1", "[1:2:3:4:5:6:7:8:9]:1", "[10.0.0.1]:1", "[a]:1",
    "a", ":1", "a:", "a:01", "a:+1", "a:1 ", " a:1", "a:65536", "a:1:1", "a b:1", "a/b:1", "http://a:1", "\u00e9:1", ".-:1", "1:1", "a" * 254 + ":1",
]

# Addresses of the nodes 1 to 3 that are refused, and a part of the reason.
TABLES = [
    ("", "it isn't JSON: there is a syntax error at byte offset 0"),
    ("{", "it isn't JSON: there is a syntax error at byte offset 1"),
    ('{"1":"a:1",\n"2":"b:1",\n"3":c:1}', "it isn't JSON: there is a syntax error at byte offset 27"),
    ('{"1":"a:1","2":"b:1","3":"c:1"} {', "it isn't JSON: there is a syntax error at byte offset 32"),
    ("[]", "it isn't an object"),
    ('"a:1"', "it isn't an object"),
    ("{}", "node 1 of the configuration has no address"),
    ('{"1":"a:1","3":"c:1"}', "node 2 of the configuration has no address"),
    ('{"1":"a:1","2":"b:1","03":"c:1"}', "node 3 of the configuration has no address"),
    ('{"1":"a:1","2":"b:1","3":"c:1","4":"d:1"}', '"4" is none of the configuration\'s nodes'),
    ('{"1":"a:1","2":"b:1","3":"c:1","":"d:1"}', '"" is none of the configuration\'s nodes'),
    ('{"1":"a:1","2":"b:1","3":"c:1","\\n":"d:1"}', '"\\n" is none of the configuration\'s nodes'),
    ('{"1":"a:1","2":7401,"3":"c:1"}', "the address of node 2 isn't HOST:PORT"),
    ('{"1":"a:1","2":"b:0","3":"c:1"}', "the port of node 2 is 0"),
    ('{"1":"10.0.0.1:0","2":"b:1","3":"c:1"}', "the port of node 1 is 0"),
    ('{"1":"a:1","2":"b:1","3":"[::1]:00"}', "the port of node 3 is 0"),
]

# The same of `node` over three nodes, behind everything but its store and register.
FILES = [
    ("--store s --register s", "--store and --register are the same file"),
    ("--store s --register ./s", "--store and --register are the same file"),
    ("--store ./s --register s", "--store and --register are the same file"),
    ("--store .//s --register ././s", "--store and --register are the same file"),
    ("--store /dev/null --register /dev/../dev/null", "--store and --register are the same file"),
]

# The same of `append` over the logs 1 and 65,535, behind its configuration and register.
APPENDS = [
    ("--batches=true --log 1 --port 1 --rounds 1", ""),
    ("--log 0 --port 1 --rounds 1", "--log isn't a number from 1 to 65535"),
    ("--log 2 --port 1 --rounds 1", "--log is 2, which isn't one of the configuration's logs"),
    ("--log 65536 --port 1 --rounds 1", "--log isn't a number"),
    ("--log 01 --port 1 --rounds 1", "--log isn't a number"),
    ("--log 1 --port 0 --rounds 1", "--port isn't a number from 1 to 65519"),
    ("--log 1 --port 65520 --rounds 1", "--port isn't a number"),
    ("--log 1 --rounds 1", "one of --port and --at has to be given"),
    ('--log 1 --port 1 --at {"1":"a:1"} --rounds 1', "--port and --at can't be given at once"),
    ('--log 1 --port 1 --at {} --rounds 1', "--port and --at can't be given at once"),
    ('--log 1 --at {"1":"a:1"} --at {"1":"a:1"} --rounds 1', ""),
    ("--log 1 --listen a:1 --rounds 1", ""),
    ("--log 1 --port 1 --rounds 1 --limit 99", "--limit isn't a number from 100 to 60000"),
    ("--log 1 --port 1 --rounds 1 --limit 60001", "--limit isn't a number"),
    ("--log 1 --port 1 --rounds 1 --limit 0100", "--limit isn't a number"),
    ("--log 1 --port 1 --rounds 0", "--rounds isn't a number from 1 to 1000000"),
    ("--log 1 --port 1 --rounds 1000001", "--rounds isn't a number"),
    ("--log 1 --port 1", ""),
    ("--log 1 --port 1 --rounds 1 more", ""),
    ("--log 1 --port 1 --rounds 1 --log 1", ""),
    ("--log 1 --port 1 --rounds 1 --store s", ""),
    ("--log 1 --port 1 --rounds 1 --from e1n1 --until e1n1", ""),
    ("--log 1 --port 1 --rounds 1 --move --move", ""),
    ("--log 1 --port 1 --rounds 1 --in-flight 0", "--in-flight isn't a number from 1 to 128"),
    ("--log 1 --port 1 --rounds 1 --in-flight 129", "--in-flight isn't a number from 1 to 128"),
    ("--log 1 --port 1 --rounds 1 --in-flight 01", "--in-flight isn't a number"),
    ("--log 1 --port 1 --rounds 1 --in-flight 2 --in-flight 2", ""),
    ("--log 1 --port 1 --rounds 1 --in-flight", ""),
    ("--log 1 --port 1 --rounds 1 --quiet", ""),
    ("--log 1 --port 1 --follow", ""),
]

# The same of `tail` over log 1, behind its configuration, register, port and rounds.
TAILS = [
    ("--messages --from e0n1 --until e0n1 --one-copy", "--one-copy and --messages can't be asked for at once"),
    ("--messages --from e0n1 --until e0n1 --messages", ""),
    ("--from e0n0 --until e1n1", "--from is e0n0 or above --until"),
    ("--from e1n0 --until e0n4294967295", "--from is e0n0 or above --until"),
    ("--from e1n2 --until e1n1", "--from is e0n0 or above --until"),
    ("--from e1n4294967296 --until e4294967295n0", "--from isn't a number eXnY"),
    ("--from e1n1 --until e4294967296n0", "--until isn't a number eXnY"),
    ("--from e01n1 --until e1n1", "--from isn't a number eXnY"),
    ("--from 1 --until e1n1", "--from isn't a number eXnY"),
    ("--from e1n1", "--until isn't given"),
    ("--until e1n1", ""),
    ("--from e1n1 --until e1n1 --follow", "--until and --follow can't be given at once"),
    ("--from e1n1 --until e1n1 --pause 5", "--pause can't be given without --follow"),
    ("--from e1n1 --follow --pause 0", "--pause isn't a number from 1 to 60000"),
    ("--from e1n1 --follow --pause 60001", "--pause isn't a number from 1 to 60000"),
    ("--from e0n0 --follow", "--from is e0n0 or above --until"),
    ("--from e1n1 --until e1n1 --from e1n1", ""),
    ("--from e1n1 --until e1n1 --log 1", ""),
]


# The same of `register` and of `status` over the logs 1 and 65535, behind configuration and register.
REGISTERS = [
    ("--log 0", "--log isn't a number"),
    ("--log 9", "--log is 9, which isn't one of the configuration's logs"),
    ("--log 1 --from 0", "--from isn't a number from 1 to 4294967295"),
    ("--log 1 --from 4294967296", "--from isn't a number from 1 to 4294967295"),
    ("--log 1 --from e1n1", "--from isn't a number"),
    ("--log 1 --port 7000", ""),
    ("--from 1", "--log isn't given"),
    ("--log 1 --json --json", ""),
    ("--log 1 --copy s", "--copy and --config can't be given at once"),
]
STATUSES = [
    ("--log 1", "one of --port and --at has to be given"),
    ("--log 9 --port 7000", "--log is 9, which isn't one of the configuration's logs"),
    ("--log 1 --port 7000 --epochs 0", "--epochs isn't a number from 1 to 1000000"),
    ("--log 1 --port 7000 --epochs 1000001", "--epochs isn't a number from 1 to 1000000"),
    ("--log 1 --port 7000 --limit 99", "--limit isn't a number from 100 to 60000"),
    ("--log 1 --port 7000 --at {}", "--port and --at can't be given at once"),
    ("--log 1 --at {}", "--at is refused: node 1 of the configuration has no address"),
    ("--log 1 --port 7000 --rounds 1", ""),
    ("--log 1 --port 7000 --json=true", ""),
]

# The same of `register --copy`, behind its register.
COPIES = [
    ("--log 1", "--config isn't given"),
    ("--copy r", "--copy and --register are the same file"),
    ("--copy s --log 1", "--copy and --log can't be given at once"),
    ("--copy s --from 1", "--copy and --from can't be given at once"),
    ("--copy s --json", "--copy and --json can't be given at once"),
    ("--copy s --copy s", ""),
    ("--copy s", "--register is r, and a register is copied to one in etcd alone"),
]

# The same of `mend`, of `replace` and of `show` over three nodes, behind configuration and store.
MENDS = [
    ("--register r --id 1 --port 1", ""),
    ("--register r --id 1 --rounds 1", "one of --port and --at has to be given"),
    ("--register r --id 4 --port 1 --rounds 1", "--id is 4, which isn't one of the configuration's nodes"),
    ("--register r --id 17 --port 1 --rounds 1", "--id isn't a number from 1 to 16"),
    ("--register s --id 1 --port 1 --rounds 1", "--store and --register are the same file"),
    ("--register r --id 1 --port 1 --rounds 0", "--rounds isn't a number from 1 to 1000000"),
    ("--register r --id 1 --port 1 --rounds 1000001", "--rounds isn't a number from 1 to 1000000"),
    ("--register r --id 1 --port 1 --rounds 1 --limit 99", "--limit isn't a number from 100 to 60000"),
    ("--register r --id 1 --port 1 --rounds 1 --log 1", ""),
]
REPLACES = [
    ("--register r --id 1 --log 1", ""),
    ("--register r --id 1 --of 1 --log 1", "--id and --of are the same node"),
    ("--register r --id 1 --of 4 --log 1", "--of is 4, which isn't one of the configuration's nodes"),
    ("--register r --id 1 --of 17 --log 1", "--of isn't a number from 1 to 16"),
    ("--register r --id 4 --of 1 --log 1", "--id is 4, which isn't one of the configuration's nodes"),
    ("--register r --id 1 --of 2 --log 9", "--log is 9, which isn't one of the configuration's logs"),
    ("--register s --id 1 --of 2 --log 1", "--store and --register are the same file"),
]
SHOWS = [
    ("--id 4", "--id is 4, which isn't one of the configuration's nodes"),
    ("--id 0", "--id isn't a number from 1 to 16"),
    ("--id 1 --register r", ""),
    ("--json", ""),
]

# The same of `trim` over the logs 1 and 65,535, behind configuration, register and rounds.
TRIMS = [
    ("--log 1 --port 1", ""),
    ("--log 1 --port 1 --upto e0n0", "--upto is e0n0, which trims nothing"),
    ("--log 1 --port 1 --upto 1", "--upto isn't a number eXnY"),
    ("--log 2 --port 1 --upto e1n1", "--log is 2, which isn't one of the configuration's logs"),
    ("--log 1 --upto e1n1", "one of --port and --at has to be given"),
    ("--log 1 --port 1 --upto e1n1 --move", ""),
]


def refused():
    """Words that are refused, and a part of the reason."""
    for text, reason in CONFIGURATIONS:
        yield ["node", "--id", "1", "--config", text, "--store", "s", "--register", "r", "--port", "1", "--turns", "9"], f"the configuration is refused: {reason}"
    for line, reason in WORDS:
        yield line.split(" "), reason
    for line, reason in NODES:
        yield ["node", "--config", NODE, "--store", "s", "--register", "r", *line.split()], reason
    for address in ADDRESSES:
        yield ["node", "--config", NODE, "--store", "s", "--register", "r", "--id", "1", "--turns", "9", "--listen", address], "--listen isn't HOST:PORT"
        table = json.dumps({"1": "a:1", "2": address, "3": "c:1"})
        yield ["append", "--config", NODE, "--register", "r", "--log", "1", "--rounds", "9", "--at", table], "the address of node 2 isn't HOST:PORT"
    for table, reason in TABLES:
        yield ["append", "--config", NODE, "--register", "r", "--log", "1", "--rounds", "9", "--at", table], f"--at is refused: {reason}"
    for line, reason in FILES:
        yield ["node", "--config", NODE, "--id", "1", "--port", "1", "--turns", "9", *line.split()], reason
    for line, reason in REGISTERS:
        yield ["register", "--config", LOGS, "--register", "r", *line.split()], reason
    for line, reason in STATUSES:
        yield ["status", "--config", LOGS, "--register", "r", *line.split()], reason
    for line, reason in COPIES:
        yield ["register", "--register", "r", *line.split()], reason
    for line, reason in MENDS:
        yield ["mend", "--config", NODE, "--store", "s", *line.split()], reason
    for line, reason in REPLACES:
        yield ["replace", "--config", NODE, "--store", "s", *line.split()], reason
    for line, reason in SHOWS:
        yield ["show", "--config", NODE, "--store", "s", *line.split()], reason
    for line, reason in TRIMS:
        yield ["trim", "--config", LOGS, "--register", "r", "--rounds", "9", *line.split()], reason
    for line, reason in APPENDS:
        yield ["append", "--config", LOGS, "--register", "r", *line.split()], reason
    for line, reason in TAILS:
        yield ["tail", "--config", LOGS, "--log", "1", "--register", "r", "--port", "7000", "--rounds", "9", *line.split()], reason
