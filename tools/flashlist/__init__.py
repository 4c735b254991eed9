"""The command ./flashlist: it builds the proved programs, passes words and files on to them, and explains and draws
what they print. It decides nothing itself.

    __main__   where ./flashlist goes in
    frame      finds the command that a call names; how a call ends
    cover      a module for each command: NAME, SUMMARY, help_text(), run(words)
    words      options as users expect them
    files      what a named file or standard input holds
    streams    standard input, output and error
    ends       exit statuses
    programs   the proved programs, run
    build      a program built from the sources as they are, once, by one run at a time; progress: how far that is
    printed    the lines that a program prints
    answers    a refusal in one sentence; ruled: why a line is not as ruled
    picture    what is drawn; svg, terminal: how
"""
