% Who may enter which room. Only those who are employed are let in; a room may be closed for all.
time civil.

initiates  hire(P)     employed(P).
terminates dismiss(P)  employed(P).

initiates  grant(P,R)  may_enter(P,R) if employed(P), not closed(R).
terminates revoke(P,R) may_enter(P,R).

initiates  close(R)    closed(R).
terminates open(R)     closed(R).
