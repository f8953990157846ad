% An audit trail: who might do what, which record was signed off, and by whom. It answers what held at any time, by what is known
% now, and why; `events` lists all that it rests on.
%
% A signature counts only if its writer had the right at that time, strictly before the signature. So a revocation that is told late
% withdraws what was signed since. audit.lines tells of one. Times are days.
initiates  grant(By, User, Right)  may(User, Right)        if may(By, grant), By != User.
terminates revoke(By, User, Right) may(User, Right)        if may(By, grant).
initiates  sign(User, Record)      signed(Record)          if may(User, sign).
initiates  sign(User, Record)      signed_by(User, Record) if may(User, sign).
terminates withdraw(User, Record)  signed(Record)          if signed_by(User, Record).
terminates withdraw(User, Record)  signed_by(User, Record).

% the first administrator has the right to grant from before all events
initially  may(root, grant).
