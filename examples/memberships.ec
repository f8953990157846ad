% Clubs, their members and their chairs. A membership card runs out at the end of its year: that end is an event of its own, told
% together with the payment, and a renewal moves it.
%
% Times are dates written as one number, 20010314 for 14 March 2001: only their order counts. memberships.lines tells of a chess
% club whose old letters turn up.
initiates  found(Person, Club)       open(Club).
initiates  found(Person, Club)       member(Person, Club).
initiates  found(Person, Club)       chairs(Person, Club).
terminates close(Club)               open(Club).
initiates  join(Person, Club)        member(Person, Club) if open(Club).
terminates leave(Person, Club)       member(Person, Club).
initiates  hand_over(Old, New, Club) chairs(New, Club)    if chairs(Old, Club), member(New, Club), Old != New.
terminates hand_over(Old, New, Club) chairs(Old, Club)    if member(New, Club), Old != New.
initiates  pay(Person, Club)         card(Person, Club).
terminates run_out(Person, Club)     card(Person, Club).
