"""What the tests are made of.

traces     packet traces and the datagrams of a session
frames     captured frames
captures   capture files
tools      the tools, as they are called
raptor     the code of RFC 5053 and its tables file, by plain definitions
programs   the built programs, as they are called
reference  the receiver as a plain machine over lists
random_sessions  random traces of sessions
"""
