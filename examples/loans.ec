% The desk of a lending library. A book that is out is lent to nobody else; who asks for one that is out waits for it.
%
% What is told at the desk comes late and is sometimes wrong: a return slip lies in a drawer for days, and another turns out to
% be of another book. loans.lines tells such a story. Times are days of the year.
initiates  lend(Book, Who)      has(Who, Book)   if not out(Book).
initiates  lend(Book, Who)      out(Book).
terminates give_back(Book, Who) has(Who, Book).
terminates give_back(Book, Who) out(Book)        if has(Who, Book).
initiates  reserve(Book, Who)   waits(Who, Book) if out(Book), not has(Who, Book).
terminates lend(Book, Who)      waits(Who, Book) if not out(Book).
terminates cancel(Book, Who)    waits(Who, Book).
