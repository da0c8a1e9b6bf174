// Definitions of an SSDT behind the DSDT of kinds.asl.
DefinitionBlock ("", "SSDT", 2, "ACPICK", "MORE", 1)
{
    Scope (\_SB)
    {
        Device (MOR0)
        {
            Name (_HID, "ACPI0001")
            OperationRegion (RGN0, SystemIO, 0x80, 0x10)
            Field (RGN0, ByteAcc, NoLock, Preserve) { FLA0, 4, , 4, FLB0, 8 }
            IndexField (FLB0, FLB0, ByteAcc, NoLock, Preserve) { IDF0, 8 }
            Method (MMM0, 3, Serialized, 2) { Return (Add (Arg0, Arg1)) }
            Alias (MMM0, AAA0)
            Name (PPP0, Package (4) { 1, "x", RGN0, Package (1) { 2 } })
            Name (BUF0, Buffer (8) { 1 })
            CreateWordField (BUF0, 2, WRD0)
            Mutex (MTX0, 0)
            Event (EVT0)
            ThermalZone (TZN0) { Name (_TMP, 3000) }
            PowerResource (PWR0, 0, 0) { Method (_STA) { Return (One) } }
        }
    }
    Name (\TOP0, Zero)
}
