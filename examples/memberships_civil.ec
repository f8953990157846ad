% Clubs, their members and their cards, as in memberships.ec, but with times that are dates and times of day in UTC. A card is paid for a
% year, and runs out with the last second of it.
time civil.
initiates  found(Person, Club)   open(Club).
initiates  found(Person, Club)   member(Person, Club).
initiates  join(Person, Club)    member(Person, Club) if open(Club).
terminates leave(Person, Club)   member(Person, Club).
initiates  pay(Person, Club)     card(Person, Club)   if member(Person, Club).
terminates run_out(Person, Club) card(Person, Club).
