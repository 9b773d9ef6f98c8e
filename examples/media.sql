-- The tables of payments and of files, and views of the payments, for PostgreSQL and for SQLite alike.

-- Medium number and payment number are the key: a further medium is appended under its own number, and a store refuses
-- to take one number twice. All values are whole numbers that a bigint holds.
create table payments (
    medium_number bigint not null,
    payment_number bigint not null, -- counted from 0 through all files of the medium
    bank_code bigint not null,
    account bigint not null,
    cents bigint not null,
    start_byte bigint not null, -- where the payment begins in its medium
    primary key (medium_number, payment_number)
);

-- What the library tells of each file. Files of one medium begin at different bytes, by which a payment finds its own.
create table files (
    medium_number bigint not null,
    file_number bigint not null, -- counted from 0
    start_byte bigint not null, -- where the file begins in its medium
    payments bigint not null, -- how many it has
    accounts bigint not null, -- their sum, and so the two below
    bank_codes bigint not null,
    cents bigint not null,
    primary key (medium_number, file_number),
    unique (medium_number, start_byte)
);

-- Each payment with the number of its file: that of the last file that begins ahead of it.
create view payments_of_files as
select
    medium_number,
    (
        select files.file_number
        from files
        where files.medium_number = payments.medium_number and files.start_byte < payments.start_byte
        order by files.start_byte desc
        limit 1
    ) as file_number,
    payment_number,
    bank_code,
    account,
    cents,
    start_byte
from payments;

-- Bank codes have 8 digits and accounts 10, with leading zeros: a one is put ahead of them and cut off again, since
-- SQLite has no lpad.
create view payments_as_written as
select
    medium_number,
    payment_number,
    substr(cast(100000000 + bank_code as text), 2) as bank_code,
    substr(cast(10000000000 + account as text), 2) as account,
    cents
from payments;
