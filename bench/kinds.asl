// Each kind of definition once or more, for comparing names with other readers.
DefinitionBlock ("", "DSDT", 2, "ACPICK", "KINDS", 1)
{
    Name (INT0, 0x12345678)
    Name (BUF0, Buffer (16) { 1, 2, 3 })
    Name (STR0, "some text")
    Name (PKG0, Package (3) { 1, "two", Package () { 3 } })
    OperationRegion (IO00, SystemIO, 0x60, 0x10)
    Field (IO00, ByteAcc, NoLock, Preserve)
    {
        FLD0, 8,
        , 4,
        FLD1, 4,
        Offset (4),
        IDX0, 8,
        DAT0, 8,
        BNK0, 8
    }
    IndexField (IDX0, DAT0, ByteAcc, NoLock, Preserve) { , 20, RTC0, 4, RTC1, 8 }
    BankField (IO00, BNK0, 1, ByteAcc, NoLock, WriteAsZeros) { Offset (8), BFL0, 8 }
    CreateByteField (BUF0, 1, BYT0)
    CreateWordField (BUF0, 2, WRD0)
    CreateDWordField (BUF0, 4, DWD0)
    CreateQWordField (BUF0, 8, QWD0)
    CreateBitField (BUF0, 3, BIT0)
    CreateField (BUF0, 5, 11, BTS0)
    Mutex (MTX0, 0)
    Event (EVT0)
    Method (MTH0, 3, Serialized, 2) { Return (Arg0) }
    PowerResource (PWR0, 0, 0) { Method (_STA, 0) { Return (1) } Method (_ON, 0) { } Method (_OFF, 0) { } }
    ThermalZone (TZ00) { Method (_TMP, 0) { Return (3000) } }
    Processor (\_PR.CPU0, 1, 0x410, 6) { Name (_PSS, Package () { }) }
    Scope (\_SB)
    {
        Device (DEV0)
        {
            Name (_HID, "ACPI0001")
            Device (INNR) { Name (_ADR, 2) Method (^UPMT, 1) { Return (INT0) } }
            Name (^BSID, 7)
        }
    }
    Scope (\_SB.DEV0.INNR) { Name (LATE, 1) Scope (DEV0) { Name (FUND, 2) } }
    Name (\_SB.DEV0.ABS0, Ones)
}
