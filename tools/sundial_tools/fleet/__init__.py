"""What the devices of a fabric do as events come: one model for sundial-record, sundial-lines and sundial-report."""
