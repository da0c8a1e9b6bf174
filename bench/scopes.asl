// A DSDT and two SSDTs with Externals within scopes and devices, of names that the other tables make: each opens scopes of the others.
DefinitionBlock ("scopes0.aml", "DSDT", 2, "ACPICK", "SCOPES0", 1)
{
    Scope (\_SB)
    {
        Device (BUS0)
        {
            Name (_ADR, Zero)
            External (^BUS0.CHLD.SIZE, MethodObj, IntObj, {IntObj})
            Name (BASE, 0x40)
            Method (LEN1, 1) { Return (Add (^CHLD.SIZE (Arg0), BASE)) }
        }
        ThermalZone (TZ00) { Name (TEMP, 300) }
    }
}
DefinitionBlock ("scopes1.aml", "SSDT", 2, "ACPICK", "SCOPES1", 1)
{
    Scope (\_SB)
    {
        External (BUS0, DeviceObj)
        External (TZ00, ThermalZoneObj)
        External (TZ00.TEMP, IntObj)
        Scope (BUS0)
        {
            External (BASE, IntObj)
            External (LEN1, MethodObj, IntObj, {IntObj})
            Device (CHLD)
            {
                Name (_ADR, Zero)
                External (TOTL, MethodObj, IntObj, {IntObj, IntObj, IntObj})
                Method (SIZE, 1) { Return (Multiply (Arg0, BASE)) }
                Method (ASK0) { Return (TOTL (SIZE (1), SIZE (2), LEN1 (3))) }
                Method (ASK1, 1) { Return (Subtract (Arg0, \_SB.TZ00.TEMP)) }
            }
        }
    }
}
DefinitionBlock ("scopes2.aml", "SSDT", 2, "ACPICK", "SCOPES2", 1)
{
    External (\_SB.BUS0.CHLD, DeviceObj)
    External (\_SB.BUS0.CHLD.ASK1, MethodObj, IntObj, {IntObj})
    Scope (\_SB.BUS0.CHLD)
    {
        External (SIZE, MethodObj, IntObj, {IntObj})
        Method (TOTL, 3) { Return (Or (ShiftLeft (Arg0, 16), Add (SIZE (Arg1), ASK1 (Arg2)))) }
    }
}
