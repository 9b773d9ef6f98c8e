-- The table of payments and the view of them as the file writes them, for PostgreSQL and for SQLite alike.

-- File number and payment number are the key: a further file is appended under its own number, and a store refuses to
-- take one number twice. All values are whole numbers; bigint is what the binary stream carries.
create table payments (
    file_number bigint not null,
    payment_number bigint not null, -- counted from 0, as dtaus_find counts
    bank_code bigint not null,
    account bigint not null,
    cents bigint not null,
    start_byte bigint not null, -- where the payment begins in its file, for dtaus_text
    primary key (file_number, payment_number)
);

-- Bank codes have 8 digits and accounts 10, with leading zeros: a one is put ahead of them and cut off again, since
-- SQLite has no lpad.
create view payments_as_written as
select
    file_number,
    payment_number,
    substr(cast(100000000 + bank_code as text), 2) as bank_code,
    substr(cast(10000000000 + account as text), 2) as account,
    cents
from payments;
