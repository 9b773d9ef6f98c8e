"""Case M, the whole case of the requirements, as a document."""

from datetime import date

from .document import Document, Header, Part, Payment

CASE_M = Document(
    Header(
        kind=b"GK", bank_code=20050010, sending_bank_code=0, name=b"MUSTER GMBH", created=date(2004, 3, 15),
        account=1234567, reference=0, execution=None,
    ),
    (Payment(
        first_bank_code=0, bank_code=30050020, account=7654321, customer_number=0, key=51, supplement=0,
        sender_bank_code=20050010, sender_account=1234567, cents=12345, name=b"MEIER KG",
        sender_name=b"MUSTER GMBH", purpose=b"RECHNUNG 17", parts=(Part(2, b"KUNDE 4"),),
    ),),
)
