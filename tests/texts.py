"""Mailbox files and replies that several scenes have."""

# A mailbox file with one message of 30 octets: 12 + 2 + 4 + 3 + 9.
MAILBOX = "From a@b Thu Jan  1 00:00:00 1970\nSubject: x\n\nhi\n.\n>From me\n\n"
# A mailbox file with two messages of 18 octets each.
TWO_MESSAGES = "From a@b Thu Jan  1 00:00:00 1970\nSubject: x\n\nhi\n\nFrom a@b Thu Jan  1 00:00:00 1970\nSubject: y\n\nyo\n"
# A mailbox file with one message of 4 octets, and one with two of these.
SHORT = "From a@b Thu Jan  1 00:00:00 1970\nhi\n"
TWO_SHORT = "From a@b Thu Jan  1 00:00:00 1970\nhi\n\nFrom a@b Thu Jan  1 00:00:00 1970\nho\n"

# What alice and bob send to log in.
ALICE = "USER alice\r\nPASS s3\r\n"
BOB = "USER bob\r\nPASS s4\r\n"
# The replies to the login of a user with no mail, with MAILBOX, and with TWO_MESSAGES.
EMPTY = "+OK send PASS\r\n+OK maildrop has 0 messages (0 octets)\r\n"
ONE = "+OK send PASS\r\n+OK maildrop has 1 messages (30 octets)\r\n"
BOTH = "+OK send PASS\r\n+OK maildrop has 2 messages (36 octets)\r\n"
# The reply to the login of a user whose maildrop another session holds.
LOCKED = "+OK send PASS\r\n-ERR [IN-USE] maildrop already locked\r\n"
QUIT = "QUIT\r\n"
BYE = "+OK signing off\r\n"
# The reply to RETR of the message of MAILBOX.
FETCHED = "+OK 30 octets\r\nSubject: x\r\n\r\nhi\r\n..\r\nFrom me\r\n.\r\n"
