"""`hart sim`: a script, and its text."""

from .images import sim_text

# The text of a script without a request.
AS_IT_WAS = sim_text("")

# The text of a script without submissions, in which a garbled request is heard once.
FAULTS_SPOKEN = sim_text("D 5 86B7420A1B2C13028800D7\n")

# A script, its text, and the line of its fault, if it has one.
ROWS = (
    ("", AS_IT_WAS, ""),
    ("turn P ok ok", AS_IT_WAS, ""),
    (
        " \t\r\n"
        "# P\xe9\r #\n"
        "\t#\n"
        "turn P ok ok\r\n"
        "\r",
        AS_IT_WAS,
        "",
    ),
    (
        "submit P 37420A1B2C 19 012345\n"
        "turn P ok ok\n",
        sim_text(
            "P 20 82B7420A1B2C13030123453D\n"
            "D 5 86B7420A1B2C130500400123457F\n"
            "1 answered 1 00 40 012345\n",
            counter=1, assembly="012345", flags="03",
        ),
        "",
    ),
    (
        "submit P 37420A1B2C 19 012345\n"
        "turn P ok lost\n"
        "turn P ok ok\n",
        sim_text(
            "P 20 82B7420A1B2C13030123453D\n"
            "D 5 86B7420A1B2C130500400123457F\n"
            "P 20 82B7420A1B2C13030123453D\n"
            "D 5 86B7420A1B2C130500400123457F\n"
            "1 answered 2 00 40 012345\n",
            counter=2, assembly="012345", flags="03",
        ),
        "",
    ),
    (
        "submit P 37420A1B2C 19 012345\n"
        "submit S 37420A1B2C 19 0A0B0C\n"
        "turn P ok lost\n"
        "turn S ok ok\n"
        "turn P ok ok\n",
        sim_text(
            "P 20 82B7420A1B2C13030123453D\n"
            "D 5 86B7420A1B2C130500400123457F\n"
            "S 20 8237420A1B2C13030A0B0CD7\n"
            "D 5 8637420A1B2C130500400A0B0C95\n"
            "P 20 82B7420A1B2C13030123453D\n"
            "D 5 86B7420A1B2C130500400123457F\n"
            "1 answered 2 00 40 012345\n"
            "2 answered 1 00 40 0A0B0C\n",
            counter=3, assembly="012345", flags="03",
        ),
        "",
    ),
    (
        "submit P 37420A1B2C 19 012345\n"
        "submit S 37420A1B2C 19 0A0B0C\n"
        "turn P ok lost\n"
        "turn S ok ok\n"
        "protect on\n"
        "turn P ok ok\n",
        sim_text(
            "P 20 82B7420A1B2C13030123453D\n"
            "D 5 86B7420A1B2C130500400123457F\n"
            "S 20 8237420A1B2C13030A0B0CD7\n"
            "D 5 8637420A1B2C130500400A0B0C95\n"
            "P 20 82B7420A1B2C13030123453D\n"
            "D 5 86B7420A1B2C1302074018\n"
            "1 answered 2 07 40 -\n"
            "2 answered 1 00 40 0A0B0C\n",
            counter=2, assembly="0A0B0C", flags="07",
        ),
        "",
    ),
    (
        "submit P 37420A1B2C 19 012345\n"
        "turn P FFFF82!40B7420A1B2C13030123453D ok\n"
        "turn P ok ok\n",
        sim_text(
            "P 20 82B7420A1B2C13030123453D\n"
            "P 20 82B7420A1B2C13030123453D\n"
            "D 5 86B7420A1B2C130500400123457F\n"
            "1 answered 2 00 40 012345\n",
            counter=1, assembly="012345", flags="03",
        ),
        "",
    ),
    (
        "submit P 37420A1B2C 19 012345\n"
        "turn P FFFF82B7420A1B2C13030123453C ok\n"
        "turn P ok ok\n",
        sim_text(
            "P 20 82B7420A1B2C13030123453D\n"
            "D 5 86B7420A1B2C13028800D7\n"
            "P 20 82B7420A1B2C13030123453D\n"
            "D 5 86B7420A1B2C130500400123457F\n"
            "1 answered 2 00 40 012345\n",
            counter=1, assembly="012345", flags="03",
        ),
        "",
    ),
    ("noise FFFF82B7420A1B2C13030123453C", FAULTS_SPOKEN, ""),
    (
        "restart\n"
        "turn P ok ok\n"
        "restart",
        AS_IT_WAS,
        "",
    ),
    (
        "restart\n"
        "submit P 37420A1B2C 19 012345\n"
        "turn P ok ok\n"
        "submit P 37420A1B2C 7\n"
        "turn P ok ok\n"
        "submit S 37420A1B2C 7\n"
        "turn S ok ok\n",
        sim_text(
            "P 20 82B7420A1B2C13030123453D\n"
            "D 5 86B7420A1B2C130500600123455F\n"
            "P 20 82B7420A1B2C07004D\n"
            "D 5 86B7420A1B2C0704004000010C\n"
            "S 20 8237420A1B2C0700CD\n"
            "D 5 8637420A1B2C070400600001AC\n"
            "1 answered 1 00 60 012345\n"
            "2 answered 1 00 40 0001\n"
            "3 answered 1 00 60 0001\n",
            counter=1, assembly="012345", flags="03",
        ),
        "",
    ),
    ("turn S FFFF82B7420A1B2C13030123453C FFFF86B7420A1B2C13028800D7", FAULTS_SPOKEN, ""),
    ("turn S FFFF82B7420A1B2C13030123453C FFFF86B7420A1B2C13028900D6", "", "undetected damage at event 0, down\n"),
    (
        "submit P 37420A1B2C 19 012345\n"
        "turn P ok FFFF86B7420A1B2C130500400123457E\n"
        "turn P ok ok\n",
        sim_text(
            "P 20 82B7420A1B2C13030123453D\n"
            "D 5 86B7420A1B2C130500400123457F\n"
            "P 20 82B7420A1B2C13030123453D\n"
            "D 5 86B7420A1B2C130500400123457F\n"
            "1 answered 2 00 40 012345\n",
            counter=2, assembly="012345", flags="03",
        ),
        "",
    ),
    (
        "submit P 37420A1B2C 19 012345\n"
        "turn P FFFF82!40B7420A1B2C13030123453D ok\n"
        "turn P ok FFFF86B7420A1B2C130500400123457E\n"
        "turn P ok ok\n",
        sim_text(
            "P 20 82B7420A1B2C13030123453D\n"
            "P 20 82B7420A1B2C13030123453D\n"
            "D 5 86B7420A1B2C130500400123457F\n"
            "P 20 82B7420A1B2C13030123453D\n"
            "D 5 86B7420A1B2C130500400123457F\n"
            "1 answered 3 00 40 012345\n",
            counter=2, assembly="012345", flags="03",
        ),
        "",
    ),
    (
        "submit P 37420A1B2C 19 012345\n"
        "turn P ok ok\n"
        "submit P 37420A1B2C 38 0001\n"
        "turn P ok ok\n",
        sim_text(
            "P 20 82B7420A1B2C13030123453D\n"
            "D 5 86B7420A1B2C130500400123457F\n"
            "P 20 82B7420A1B2C260200016F\n"
            "D 5 86B7420A1B2C2604000000016D\n"
            "1 answered 1 00 40 012345\n"
            "2 answered 1 00 00 0001\n",
            counter=1, assembly="012345", flags="02",
        ),
        "",
    ),
    (
        "submit P @0 0\n"
        "submit S 37420A1B2C 6 0501\n"
        "turn P ok lost\n"
        "turn S ok ok\n"
        "turn P ok ok\n",
        sim_text(
            "P 20 0280000082\n"
            "D 5 068000180000FE37420507010218000A1B2C0504000000003700370131\n"
            "S 20 8237420A1B2C06020501CA\n"
            "D 5 8637420A1B2C06040040050188\n"
            "P 20 0280000082\n"
            "1 unfinished 2\n"
            "2 answered 1 00 40 0501\n",
            counter=1, polling="05", flags="03",
        ),
        "",
    ),
    (
        "submit P 37420A1B2C 19 012345\n"
        "turn P lost ok\n"
        "turn P lost ok\n"
        "turn P lost ok\n"
        "turn P lost ok\n",
        sim_text(
            "P 20 82B7420A1B2C13030123453D\n"
            "P 20 82B7420A1B2C13030123453D\n"
            "P 20 82B7420A1B2C13030123453D\n"
            "P 20 82B7420A1B2C13030123453D\n"
            "1 noreply 4\n",
        ),
        "",
    ),
    (
        "submit P all 0\n"
        "submit S 37420A1B2C 16\n"
        "submit S 37420A1B2C 16\n",
        sim_text(
            "1 refused 3\n"
            "2 unfinished 0\n"
            "3 refused 2\n",
        ),
        "",
    ),
    ("submit P @0 1", sim_text("1 refused 3\n"), ""),
    (
        "submit\tP  @07 0 \n"
        "submit S FF420A1B2C 0",
        sim_text(
            "1 unfinished 0\n"
            "2 unfinished 0\n",
        ),
        "",
    ),
    (
        "submit P @0 0\n"
        "turn P ok FFFF06800002000084\n",
        "",
        "undetected damage at event 1, down\n",
    ),
    (
        "submit P 37420A1B2C 19 012345\n"
        "turn P FFFF82B7420A1B2C13030123463E ok\n",
        "",
        "undetected damage at event 1, up\n",
    ),
    (
        "submit P 37420A1B2C 17 FFFF02800000820000000000000000000000000000000000\n"
        "turn P FFFF82!40B7420A1B2C1118FFFF0280000082000000000000000000000000000000000043 ok\n",
        "",
        "undetected damage at event 1, up\n",
    ),
    ("turn P FFFF0280000082 ok", "", "undetected damage at event 0, up\n"),
    (
        "# Frames from nowhere\n"
        "\n"
        "protect on\n"
        "turn P ok FFFF0280000082",
        "",
        "undetected damage at event 1, down\n",
    ),
    ("noise FFFF0280000082", "", "undetected damage at event 0, noise\n"),
    (
        "protect on\n"
        "turn X ok ok\n",
        "",
        "bad line 2\n",
    ),
    (
        "noise FFFF0280000082\n"
        "protect",
        "",
        "bad line 2\n",
    ),
    ("turn P ok ok\r\r", "", "bad line 1\n"),
    ("restart now", "", "bad line 1\n"),
    ("turn P ok ok #", "", "bad line 1\n"),
    ("turn P FF FF ok", "", "bad line 1\n"),
    ("noise FF\rFF", "", "bad line 1\n"),
    ("noise FF FF", "", "bad line 1\n"),
    ("noise FF\tFF", "", "bad line 1\n"),
    ("\r#", "", "bad line 1\n"),
)
