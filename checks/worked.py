"""Runs worked out by hand, for the checks of `decode` and `replay`: what is read, and what has to come of it.

In the texts `=` stands for the lines of a head, `@` for the alive of a peer, `&` for what the node of the head answers, and `%` for the
line of its opening. `~` is the first two lines of a head of version 2, with the same node, `^` a whole one, of group 0, `$` the line of an
opening in version 2 up to its quantum, `!` the same alive in group 1, and `?` what is answered in that group.
"""
HEAD = "replay 1\nnode QRSTUVWX 1 500000 1 1000000\ngate 127.0.0.1:20809\n"
FRONT = "replay 2\nnode QRSTUVWX 1 500000 1 1000000\n"
HEAD_2 = FRONT + "group 0\nquantum 4000000\ngate 127.0.0.1:20809\n"
OPENING = "state 0 500000 0 1000000 0 0 0 1 0 1000000 0 0\n"
# In version 2 the session follows, and the quantum.
OPENING_2 = "state 0 500000 0 1000000 0 0 0 1 0 1000000 0 0 5152535455565758 "
# The node ABCDEFGH in its own session: 500000 microseconds per beat from beat 0 at time 0, no start, the endpoint 127.0.0.1:20808.
ALIVE = (
    "5f617364705f7601010500004142434445464748746d6c6e00000018000000000007a12000000000000000000000000000000000736573730000000841424344"
    "45464748737473740000001100000000000000000000000000000000006d657034000000067f0000015148"
)
RESPONSE = (
    "5f617364705f7601020500005152535455565758746d6c6e00000018000000000007a12000000000000000000000000000000000736573730000000851525354"
    "55565758737473740000001100000000000000000000000000000000006d657034000000067f0000015149"
)
ALIVE_TOLD = "alive 4142434445464748 5 0 500000 0 0 4142434445464748 0 0 0 127.0.0.1:20808\n"
RESPONSE_TOLD = "response 5152535455565758 5 0 500000 0 0 5152535455565758 0 0 0 127.0.0.1:20809\n"
# The same two in group 1, whose two bytes stand before the id.
ALIVE_OF_1, RESPONSE_OF_1 = (told.replace("050000", "050001", 1) for told in (ALIVE, RESPONSE))
LETTERS = {
    **{"=": HEAD, "~": FRONT, "^": HEAD_2, "%": OPENING, "$": OPENING_2},
    **{"@": ALIVE, "&": RESPONSE, "!": ALIVE_OF_1, "?": RESPONSE_OF_1},
}

# Texts of datagrams, and what is told of them.
DECODED = [
    ("", ""),
    ("\n\n", "fault short 0\nfault short 0\n"),
    # Shorter than their heads.
    ("5f617364705f76010105000041424344454647\n5f6c696e6b5f7601\n", "fault short 19\nfault short 8\n"),
    ("@\n", "alive 4142434445464748 5 0 500000 0 0 4142434445464748 0 0 0 127.0.0.1:20808\n"),
    # The same with an entry that is unknown, and with a second timeline, of which the last one counts.
    (
        "5f617364705f7601010500004142434445464748746d6c6e00000018000000000007a120000000000000000000000000000000006d6570360000001200000000000000000000000000000000000073657373000000084142434445464748737473740000001100000000000000000000000000000000006d657034000000067f0000015148\n",
        "alive 4142434445464748 5 0 500000 0 0 4142434445464748 0 0 0 127.0.0.1:20808\n",
    ),
    (
        "5f617364705f7601010500004142434445464748746d6c6e00000018000000000007a12000000000000000000000000000000000746d6c6e000000180000000000061a800000000000000000000000000000000073657373000000084142434445464748737473740000001100000000000000000000000000000000006d657034000000067f0000015148\n",
        "alive 4142434445464748 5 0 400000 0 0 4142434445464748 0 0 0 127.0.0.1:20808\n",
    ),
    ("&", "response 5152535455565758 5 0 500000 0 0 5152535455565758 0 0 0 127.0.0.1:20809\n"),
    ("5f617364705f7601030000004142434445464748", "bye 4142434445464748 0 0\n"),
    ("5f617364705f7601090500014142434445464748", "other discovery 9\n"),
    ("5f6c696e6b5f760101", "ping -\n"),
    ("5F6C696E6B5F760101AbCd\n", "ping abcd\n"),
    (
        "5f6c696e6b5f760102736573730000000851525354555657585f5f677400000008ffffffffffffffff5f5f68740000000800000000000003e8",
        "pong 5152535455565758 -1 1000 0\n",
    ),
    ("5f6c696e6b5f760102", "fault missing 73657373\n"),
    ("5f6c696e6b5f760107", "other link 7\n"),
    # A time origin of 2^60 and 1.
    (
        "5f617364705f7601010500004142434445464748746d6c6e00000018000000000007a1201000000000000001000000000000000073657373000000085152535455565758737473740000001100000000000000000000000000000000006d657034000000067f0000015148",
        "fault range 746d6c6e 1152921504606846977\n",
    ),
    ("@00\n000000000000000000\n", "fault cut 87\nfault notlink\n"),
]

# Texts that are no datagrams in hex, and the first line at fault; 0 where there is none.
NOT_HEX = [
    ("0", 1),
    ("00\n000\n", 2),
    ("00\n\n0g\n0\n", 3),
    ("-\n", 1),
    ("# a comment\n", 1),
    ("00 00\n", 1),
    ("00\n00\r\n", 2),
    ("00\n\x0000", 2),
    ("00\naF", 0),
]

# Scripts, and what a node sends and shows.
REPLAYED = [
    ("=", "%done 0 1 0\n"),
    # From another port.
    (
        (
            "# who\n"
            "\n"
            "=\n"
            "# the alive of a peer in its own session\n"
            "rx 1000100 0 10.0.0.255:1 @"
        ),
        "%tx 1000100 0 10.0.0.255:1 &\ndone 1 1 1\n",
    ),
    # Its own id, another group, another kind.
    (
        (
            "=rx 1000100 0 127.0.0.1:20808 5f617364705f7601010500005152535455565758746d6c6e00000018000000000007a1200000000000000000000000000000000073657373000000084142434445464748737473740000001100000000000000000000000000000000006d657034000000067f0000015148\n"
            "rx 1000100 0 127.0.0.1:20808 5f617364705f7601010500014142434445464748746d6c6e00000018000000000007a1200000000000000000000000000000000073657373000000084142434445464748737473740000001100000000000000000000000000000000006d657034000000067f0000015148\n"
            "rx 1000100 0 127.0.0.1:20808 5f617364705f7601090500004142434445464748746d6c6e00000018000000000007a1200000000000000000000000000000000073657373000000084142434445464748737473740000001100000000000000000000000000000000006d657034000000067f0000015148\n"
        ),
        "%done 3 1 0\n",
    ),
    # Its own id, and then a peer.
    (
        (
            "=rx 1000100 0 127.0.0.1:20808 5f617364705f7601010500005152535455565758746d6c6e00000018000000000007a1200000000000000000000000000000000073657373000000084142434445464748737473740000001100000000000000000000000000000000006d657034000000067f0000015148\n"
            "rx 1000100 0 127.0.0.1:20808 @\n"
        ),
        "%tx 1000100 0 127.0.0.1:20808 &\ndone 2 1 1\n",
    ),
    # The pong of a ping at 250 microseconds of ghost time: its session, that time, and the ping's payload.
    (
        "=rx 1000250 0 127.0.0.1:20808 5f6c696e6b5f7601015f5f68740000000800000000000003e8\n",
        (
            "%tx 1000250 0 127.0.0.1:20808 5f6c696e6b5f760102736573730000000851525354555657585f5f67740000000800000000000000fa5f5f68740000000800000000000003e8\n"
            "done 1 1 1\n"
        ),
    ),
    # The same in digits of upper case.
    (
        "=rx 1000250 0 127.0.0.1:20808 5F6C696E6B5F7601015F5F68740000000800000000000003E8\n",
        (
            "%tx 1000250 0 127.0.0.1:20808 5f6c696e6b5f760102736573730000000851525354555657585f5f67740000000800000000000000fa5f5f68740000000800000000000003e8\n"
            "done 1 1 1\n"
        ),
    ),
    # A payload of 32 bytes.
    (
        "=rx 1000250 0 127.0.0.1:20808 5f6c696e6b5f7601010000000000000000000000000000000000000000000000000000000000000000\n",
        (
            "%tx 1000250 0 127.0.0.1:20808 5f6c696e6b5f760102736573730000000851525354555657585f5f67740000000800000000000000fa0000000000000000000000000000000000000000000000000000000000000000\n"
            "done 1 1 1\n"
        ),
    ),
    # A payload of 33 bytes.
    (
        "=rx 1000250 0 127.0.0.1:20808 5f6c696e6b5f760101000000000000000000000000000000000000000000000000000000000000000000\n",
        "%done 1 1 0\n",
    ),
    # No bytes.
    ("=rx 1000250 0 127.0.0.1:20808 -\n", "%done 1 1 0\n"),
    # A tempo of 250000 from half a second on, then the first one again; the response tells the session's timeline, whose beat
    # origin has grown twice.
    (
        (
            "replay 1\n"
            "node QRSTUVWX 1 500000 1 0\n"
            "gate 127.0.0.1:20809\n"
            "app 1000000 1000000 t 250000 0 500000\n"
            "app 1000000 1000000 t 500000 0 0\n"
            "rx 1000000 0 127.0.0.1:20808 @\n"
        ),
        (
            "state 0 500000 0 0 0 0 0 1 0 0 0 0\n"
            "state 1 250000 0 500000 0 0 0 1 0 1000000 1 0\n"
            "state 2 500000 0 0 0 0 0 1 0 1000000 2 0\n"
            "tx 1000000 0 127.0.0.1:20808 5f617364705f7601020500005152535455565758746d6c6e00000018000000000007a12000000000001e848100000000000f424173657373000000085152535455565758737473740000001100000000000000000000000000000000006d657034000000067f0000015149\n"
            "done 3 3 1\n"
        ),
    ),
    # The same with a response after each commit.
    (
        (
            "replay 1\n"
            "node QRSTUVWX 1 500000 1 0\n"
            "gate 127.0.0.1:20809\n"
            "app 1000000 1000000 t 250000 0 500000\n"
            "rx 1000000 0 127.0.0.1:20808 @\n"
            "app 1000000 1000000 t 500000 0 0\n"
            "rx 1000000 0 127.0.0.1:20808 @\n"
        ),
        (
            "state 0 500000 0 0 0 0 0 1 0 0 0 0\n"
            "state 1 250000 0 500000 0 0 0 1 0 1000000 1 0\n"
            "tx 1000000 0 127.0.0.1:20808 5f617364705f7601020500005152535455565758746d6c6e00000018000000000003d09000000000001e848000000000000f424073657373000000085152535455565758737473740000001100000000000000000000000000000000006d657034000000067f0000015149\n"
            "state 2 500000 0 0 0 0 0 1 0 1000000 2 0\n"
            "tx 1000000 0 127.0.0.1:20808 5f617364705f7601020500005152535455565758746d6c6e00000018000000000007a12000000000001e848100000000000f424173657373000000085152535455565758737473740000001100000000000000000000000000000000006d657034000000067f0000015149\n"
            "done 4 3 2\n"
        ),
    ),
    # A peer of the own session on two gates counts once, until its last row ends: 3 s and 5 s to live and 1 s more.
    (
        (
            "=gate 127.0.0.1:20810\n"
            "rx 2000000 0 127.0.0.1:20808 5f617364705f7601010500004142434445464748746d6c6e00000018000000000007a1200000000000000000000000000000000073657373000000085152535455565758737473740000001100000000000000000000000000000000006d657034000000067f0000015148\n"
            "rx 3000000 1 127.0.0.1:20808 5f617364705f7601010500004142434445464748746d6c6e00000018000000000007a1200000000000000000000000000000000073657373000000085152535455565758737473740000001100000000000000000000000000000000006d657034000000067f0000015148\n"
            "rx 4000000 0 127.0.0.1:20808 5f617364705f7601030000004142434445464748\n"
            "tick 8999999\n"
            "tick 9000000\n"
        ),
        (
            "%tx 2000000 0 127.0.0.1:20808 &\n"
            "state 1 500000 0 1000000 0 0 0 1 1 2000000 0 0\n"
            "tx 3000000 1 127.0.0.1:20808 5f617364705f7601020500005152535455565758746d6c6e00000018000000000007a1200000000000000000000000000000000073657373000000085152535455565758737473740000001100000000000000000000000000000000006d657034000000067f000001514a\n"
            "state 2 500000 0 1000000 0 0 0 1 0 9000000 0 0\n"
            "done 5 3 2\n"
        ),
    ),
    # The session that is founded then: its id is the first one drawn, its beat 16 is at its ghost time 0, and that is host time 9000000.
    (
        (
            "=gate 127.0.0.1:20810\n"
            "rx 2000000 0 127.0.0.1:20808 5f617364705f7601010500004142434445464748746d6c6e00000018000000000007a1200000000000000000000000000000000073657373000000085152535455565758737473740000001100000000000000000000000000000000006d657034000000067f0000015148\n"
            "rx 3000000 1 127.0.0.1:20808 5f617364705f7601010500004142434445464748746d6c6e00000018000000000007a1200000000000000000000000000000000073657373000000085152535455565758737473740000001100000000000000000000000000000000006d657034000000067f0000015148\n"
            "rx 4000000 0 127.0.0.1:20808 5f617364705f7601030000004142434445464748\n"
            "tick 9000000\n"
            "rx 9000250 0 127.0.0.1:20808 5f6c696e6b5f7601015f5f68740000000800000000000003e8\n"
            "rx 9000300 0 127.0.0.1:20808 @\n"
        ),
        (
            "%tx 2000000 0 127.0.0.1:20808 &\n"
            "state 1 500000 0 1000000 0 0 0 1 1 2000000 0 0\n"
            "tx 3000000 1 127.0.0.1:20808 5f617364705f7601020500005152535455565758746d6c6e00000018000000000007a1200000000000000000000000000000000073657373000000085152535455565758737473740000001100000000000000000000000000000000006d657034000000067f000001514a\n"
            "state 2 500000 0 1000000 0 0 0 1 0 9000000 0 0\n"
            "tx 9000250 0 127.0.0.1:20808 5f6c696e6b5f76010273657373000000083e707a312b596f635f5f67740000000800000000000000fa5f5f68740000000800000000000003e8\n"
            "tx 9000300 0 127.0.0.1:20808 5f617364705f7601020500003e707a312b596f63746d6c6e00000018000000000007a1200000000000f42400000000000000000073657373000000083e707a312b596f63737473740000001100000000000000000000000000000000006d657034000000067f0000015149\n"
            "done 6 3 4\n"
        ),
    ),
    # A tick broadcasts.
    (
        "=to 127.0.0.1:20808\ntick 1000000\n",
        (
            "%tx 1000000 0 127.0.0.1:20808 5f617364705f7601010500005152535455565758746d6c6e00000018000000000007a1200000000000000000000000000000000073657373000000085152535455565758737473740000001100000000000000000000000000000000006d657034000000067f0000015149\n"
            "done 1 1 1\n"
        ),
    ),
    # A node of group 1 passes over an alive of group 0, and answers one of group 1 in group 1.
    (
        "~group 1\nquantum 4000000\ngate 127.0.0.1:20809\nrx 1000100 0 127.0.0.1:20808 @\nrx 1000100 0 127.0.0.1:20808 !\n",
        "$4000000\ntx 1000100 0 127.0.0.1:20808 ?\ndone 2 1 1\n",
    ),
    # One of group 0 hears that group alone, as one of version 1 does.
    (
        "~group 0\nquantum 0\ngate 127.0.0.1:20809\nrx 1000100 0 127.0.0.1:20808 !\nrx 1000100 0 127.0.0.1:20808 @\n",
        "$0\ntx 1000100 0 127.0.0.1:20808 &\ndone 2 1 1\n",
    ),
    # The groups 1 and 256 have the same two bytes in another order.
    (
        "~group 256\nquantum 4000000\ngate 127.0.0.1:20809\nrx 1000100 0 127.0.0.1:20808 !\n",
        "$4000000\ndone 1 1 0\n",
    ),
    # In group 258: a tick broadcasts and an end says goodbye.
    (
        "~group 258\nquantum 1099511627776\ngate 127.0.0.1:20809\nto 127.0.0.1:20808\ntick 1000000\nend 2000000\n",
        (
            "$1099511627776\n"
            "tx 1000000 0 127.0.0.1:20808 5f617364705f7601010501025152535455565758746d6c6e00000018000000000007a1200000000000000000000000000000000073657373000000085152535455565758737473740000001100000000000000000000000000000000006d657034000000067f0000015149\n"
            "tx 2000000 0 127.0.0.1:20808 5f617364705f7601030001025152535455565758\n"
            "done 2 1 2\n"
        ),
    ),
    # A peer of the own session in group 1 isn't gone with a goodbye of group 0 or 256, but when 5 s to live and 1 s more are over. Then a
    # session is founded, of the first id drawn.
    (
        (
            "~group 1\nquantum 4000000\ngate 127.0.0.1:20809\n"
            "rx 2000000 0 127.0.0.1:20808 5f617364705f7601020500014142434445464748746d6c6e00000018000000000007a1200000000000000000000000000000000073657373000000085152535455565758737473740000001100000000000000000000000000000000006d657034000000067f0000015148\n"
            "rx 3000000 0 127.0.0.1:20808 5f617364705f7601030000004142434445464748\n"
            "rx 3000000 0 127.0.0.1:20808 5f617364705f7601030001004142434445464748\n"
            "tick 7999999\n"
            "tick 8000000\n"
        ),
        (
            "$4000000\n"
            "state 1 500000 0 1000000 0 0 0 1 1 2000000 0 0 5152535455565758 4000000\n"
            "state 2 500000 0 1000000 0 0 0 1 0 8000000 0 0 3e707a312b596f63 4000000\n"
            "done 5 3 0\n"
        ),
    ),
    # With one of group 1 it is, at once.
    (
        (
            "~group 1\nquantum 4000000\ngate 127.0.0.1:20809\n"
            "rx 2000000 0 127.0.0.1:20808 5f617364705f7601020500014142434445464748746d6c6e00000018000000000007a1200000000000000000000000000000000073657373000000085152535455565758737473740000001100000000000000000000000000000000006d657034000000067f0000015148\n"
            "rx 3000000 0 127.0.0.1:20808 5f617364705f7601030000014142434445464748\n"
        ),
        (
            "$4000000\n"
            "state 1 500000 0 1000000 0 0 0 1 1 2000000 0 0 5152535455565758 4000000\n"
            "state 2 500000 0 1000000 0 0 0 1 0 3000000 0 0 3e707a312b596f63 4000000\n"
            "done 2 3 0\n"
        ),
    ),
    # A commit of a quantum alone.
    (
        "replay 2\nnode QRSTUVWX 1 500000 1 0\ngroup 0\nquantum 4000000\ngate 127.0.0.1:20809\napp 0 0 q 3000000\n",
        (
            "state 0 500000 0 0 0 0 0 1 0 0 0 0 5152535455565758 4000000\n"
            "state 1 500000 0 0 0 0 0 1 0 0 1 0 5152535455565758 3000000\n"
            "done 1 2 0\n"
        ),
    ),
    # One beside a start that isn't later than the node's own, which isn't taken; and one that changes nothing.
    (
        "^app 1000000 1000000 s 1 0 0 q 1099511627776\naudio 2000000 7 2000000 q 1099511627776\n",
        (
            "$4000000\n"
            "state 1 500000 0 1000000 0 0 0 1 0 1000000 1 0 5152535455565758 1099511627776\n"
            "state 2 500000 0 1000000 0 0 0 1 0 2000000 1 7 5152535455565758 1099511627776\n"
            "done 2 3 0\n"
        ),
    ),
    # All three parts in one commit of the audio thread.
    (
        (
            "replay 2\nnode QRSTUVWX 1 500000 1 0\ngroup 0\nquantum 3000000\ngate 127.0.0.1:20809\n"
            "audio 1000000 7 1000000 t 250000 0 500000 s 1 1000000 1000000 q 0\n"
        ),
        (
            "state 0 500000 0 0 0 0 0 1 0 0 0 0 5152535455565758 3000000\n"
            "state 1 250000 0 500000 1 1000000 1000000 1 0 1000000 0 7 5152535455565758 0\n"
            "done 1 2 0\n"
        ),
    ),
    # A peer of the own session tells the last beat origin, 2^60. Of a commit with a timeline nothing is taken then, its start and its
    # quantum neither; one of a quantum alone is taken.
    (
        (
            "^rx 2000000 0 127.0.0.1:20808 5f617364705f7601020500004142434445464748746d6c6e00000018000000000007a1201000000000000000000000000000000073657373000000085152535455565758737473740000001100000000000000000000000000000000006d657034000000067f0000015148\n"
            "app 2000000 2000000 t 400000 0 0 s 1 0 5 q 3000000\n"
            "app 2000000 2000000 q 3000000\n"
        ),
        (
            "$4000000\n"
            "state 1 500000 -1152921504606846976 -576460752302423488 0 0 0 1 1 2000000 0 0 5152535455565758 4000000\n"
            "state 2 500000 -1152921504606846976 -576460752302423488 0 0 0 1 1 2000000 1 0 5152535455565758 4000000\n"
            "state 3 500000 -1152921504606846976 -576460752302423488 0 0 0 1 1 2000000 2 0 5152535455565758 3000000\n"
            "done 3 4 0\n"
        ),
    ),
    # An end says goodbye, and what comes after it is answered as before.
    (
        (
            "=to 127.0.0.1:20808\n"
            "to 127.0.0.1:20810\n"
            "end 2000000\n"
            "rx 2000100 0 127.0.0.1:20808 @\n"
        ),
        (
            "%tx 2000000 0 127.0.0.1:20808 5f617364705f7601030000005152535455565758\n"
            "tx 2000000 0 127.0.0.1:20810 5f617364705f7601030000005152535455565758\n"
            "tx 2000100 0 127.0.0.1:20808 &\n"
            "done 2 1 3\n"
        ),
    ),
]

# Texts at the edge of the grammar of scripts, and the first line at fault; 0 where there is none.
EDGES = [
    ("", 1),
    ("# nothing else\n", 2),
    ("replay 2\n", 2),
    ("replay 3\n", 1),
    ("replay 0\n", 1),
    ("replay 02\n", 1),
    ("replay 2 \n", 1),
    ("replay 1 2\n", 1),
    ("~", 3),
    ("~group 1\n", 4),
    ("~group 1\n# no quantum\n", 5),
    ("~group 1\nquantum 4000000\n", 5),
    ("~gate 127.0.0.1:20809\n", 3),
    ("~group 1\ngate 127.0.0.1:20809\n", 4),
    ("~quantum 4000000\ngroup 1\ngate 127.0.0.1:20809\n", 3),
    ("~quantum 4000000\ngate 127.0.0.1:20809\n", 3),
    ("~group 1\ngroup 1\nquantum 4000000\ngate 127.0.0.1:20809\n", 4),
    ("~group 1\nquantum 4000000\nquantum 4000000\ngate 127.0.0.1:20809\n", 5),
    ("~gate 127.0.0.1:20809\ngroup 1\nquantum 4000000\n", 3),
    ("~group 1\nquantum 4000000\ngate 127.0.0.1:20809\ngroup 1\n", 6),
    ("~group 1\nquantum 4000000\ngate 127.0.0.1:20809\ntick 5\nquantum 4000000\n", 7),
    ("~group 0\nquantum 0\ngate 127.0.0.1:20809\n", 0),
    ("~\n# the greatest\ngroup 65535\n\nquantum 1099511627776\ngate 127.0.0.1:20809", 0),
    ("~group 65536\nquantum 4000000\ngate 127.0.0.1:20809\n", 3),
    ("~\n# too great\ngroup 65536\nquantum 4000000\ngate 127.0.0.1:20809\n", 5),
    ("~group 01\nquantum 4000000\ngate 127.0.0.1:20809\n", 3),
    ("~group +1\nquantum 4000000\ngate 127.0.0.1:20809\n", 3),
    ("~group -0\nquantum 4000000\ngate 127.0.0.1:20809\n", 3),
    ("~group -1\nquantum 4000000\ngate 127.0.0.1:20809\n", 3),
    ("~group\nquantum 4000000\ngate 127.0.0.1:20809\n", 3),
    ("~group 1 1\nquantum 4000000\ngate 127.0.0.1:20809\n", 3),
    ("~group 1\nquantum 1099511627777\ngate 127.0.0.1:20809\n", 4),
    ("~group 1\nquantum 04000000\ngate 127.0.0.1:20809\n", 4),
    ("~group 1\nquantum -4000000\ngate 127.0.0.1:20809\n", 4),
    ("~group 1\nquantum 4000000\r\ngate 127.0.0.1:20809\n", 4),
    ("~group 1\nquantum \ngate 127.0.0.1:20809\n", 4),
    ("replay 1\nnode QRSTUVWX 1 500000 1 1000000\ngroup 0\nquantum 4000000\ngate 127.0.0.1:20809\n", 3),
    ("replay 1\nnode QRSTUVWX 1 500000 1 1000000\nquantum 4000000\ngate 127.0.0.1:20809\n", 3),
    ("=group 0\n", 4),
    ("replay 1\nnode QRSTUVWX 1 500000 1 0\ngate 127.0.0.1:20809\napp 0 0 q 3000000\n", 4),
    ("=app 5 5 q 0\n", 4),
    ("=app 5 5 t 500000 0 0 q 5\n", 4),
    ("=app 5 5 s 1 0 0 q 5\n", 4),
    ("=app 5 5 t 500000 0 0 s 1 0 0 q 5\n", 4),
    ("=tick 5\n# and then\naudio 5 1 5 q 5\nwait\n", 6),
    ("^app 5 5 q 0", 0),
    ("^app 5 5 q 1099511627776\n", 0),
    ("^app 5 5 q 1099511627777\n", 6),
    ("^app 5 5 q -1\n", 6),
    ("^app 5 5 q -0\n", 6),
    ("^app 5 5 q 05\n", 6),
    ("^app 5 5 q\n", 6),
    ("^app 5 5 q \n", 6),
    ("^app 5 5 q 5\r\n", 6),
    ("^app 5 5 q 5 5\n", 6),
    ("^app 5 5 q 5 q 5\n", 6),
    ("^app 5 5 Q 5\n", 6),
    ("^app 5 q 5\n", 6),
    ("^app 5 5 s 1 0 0 q 5\n", 0),
    ("^app 5 5 q 5 s 1 0 0\n", 6),
    ("^audio 5 1 5 t 500000 0 0 q 5\n", 0),
    ("^audio 5 1 5 q 5 t 500000 0 0\n", 6),
    ("^audio 5 1 5 t 500000 0 0 q 5 s 1 0 0\n", 6),
    ("^audio 5 1 5 t 500000 0 0 s 1 0 0 q 5\ntick\n", 7),
    ("replay 1\r\n", 1),
    ("replay 1", 2),
    ("replay 1\n\n# no node\ngate 127.0.0.1:20809\n", 4),
    ("replay 1\nnode QRSTUVWX 1 60059 1 1000000\n", 2),
    ("replay 1\nnode QRSTUVWX 1 500000 1 1000000\n", 3),
    ("replay 1\nnode QRSTUVWX 1 500000 1 1000000\ngate 127.0.0.1\n", 3),
    ("=", 0),
    ("=gate 127.0.0.1:1\ngate 127.0.0.1:2\ngate 127.0.0.1:3\ngate 127.0.0.1:4\n", 7),
    ("=tick 5\n\n \n", 6),
    ("=tick 36028797018963969\n", 4),
    ("=rx 1 1 127.0.0.1:20808 @\n", 4),
    ("=rx 1 0 127.0.0.1:20808 @0\n", 4),
    ("=app 5 5 t 500000 0 0 s 1 0 0\nend 5", 0),
    ("=audio 5 1 5\naudio 5 1 5\n", 5),
    ("=end 5\ntick 5\nend\n", 6),
]


def meant(text):
    """A text with what its letters stand for."""
    return "".join(LETTERS.get(letter, letter) for letter in text)


def decoded():
    """Texts of datagrams with the status, the output (None for any) and the line at fault."""
    for text, told in DECODED:
        yield meant(text), (0, told, None)
    for text, line in NOT_HEX:
        yield text, (8, "", line) if line else (0, None, None)
    # The alive with 406 bytes behind it has 513.
    yield ALIVE + "00" * 406, (0, "fault toolong 513\n", None)
    # A text of as many bytes as are read.
    yield ALIVE + "00" * (8_388_608 - 107), (0, "fault toolong 8388608\n", None)
    # More than a million bytes.
    yield (ALIVE + "\n" + RESPONSE + "\n") * 2400, (0, (ALIVE_TOLD + RESPONSE_TOLD) * 2400, None)


def joined(head, tail):
    """A script of this head, and its output, of which each state line has this tail: 51 pongs, of which each gives two points, measure the
    session of ABCDEFGH, and it is joined, since its clock is the node's and its id the lesser one. It has the same timeline, and IJKLMNOP
    stays behind alone, so the session and nothing else is another one."""
    peer, other = ALIVE.replace("760101", "760102", 1), RESPONSE.replace("51525354", "494a4b4c", 1).replace("55565758", "4d4e4f50", 1)
    # The moment is the ghost time 100.
    ping = "tx 1000100 0 127.0.0.1:20808 5f6c696e6b5f7601015f5f68740000000800000000000f42a4"
    pong = (
        "rx 1000100 0 127.0.0.1:20808 5f6c696e6b5f76010273657373000000084142434445464748"
        "5f5f67740000000800000000000000645f5f68740000000800000000000f42a45f706774000000080000000000000064\n"
    )
    state = "state {} 500000 0 1000000 0 0 0 1 1 1000100 0 0" + tail
    text = f"rx 1000100 0 127.0.0.1:20808 {peer}\nrx 1000100 0 127.0.0.1:20810 {other}\ntick 1000100\n" + pong * 51
    told = state.format(1, "5152535455565758") + ping + "\n" + (ping + "5f706774000000080000000000000064\n") * 50
    return head + text, told + state.format(2, "4142434445464748") + "done 54 3 51\n"


def replayed():
    """Scripts with the status, the output (None for any) and the line at fault."""
    for text, told in REPLAYED:
        yield meant(text), (0, meant(told), None)
    for text, line in EDGES:
        yield meant(text), (8, "", line) if line else (0, None, None)
    for head, opening, tail in ((HEAD, OPENING, "\n"), (HEAD_2, OPENING_2 + "4000000\n", " {} 4000000\n")):
        text, told = joined(head, tail)
        yield text, (0, opening + told, None)
    # More than a million bytes.
    heard, sent = f"rx 1000100 0 127.0.0.1:20808 {ALIVE}\n", f"tx 1000100 0 127.0.0.1:20808 {RESPONSE}\n"
    yield HEAD + heard * 4200, (0, OPENING + sent * 4200 + "done 4200 1 4200\n", None)


def agrees(found, wanted):
    """Whether a status, an output and a line at fault are those that are wanted. Any output is one that isn't empty."""
    (status, output, line), (given, told, named) = found, wanted
    return (status, line) == (given, named) and (output != "" if told is None else output == told)
