// Resource templates of every kind that acpicheck tells apart, for bench/resources.py.
DefinitionBlock ("", "DSDT", 2, "ACPICK", "RESOURCE", 1)
{
    Name (R000, ResourceTemplate ()
    {
        IRQ (Level, ActiveLow, Shared, ) {9}
        IRQ (Edge, ActiveHigh, Exclusive, ) {0}
        IRQ (Level, ActiveHigh, Shared, ) {15}
        IRQ (Edge, ActiveLow, Exclusive, ) {1,2,10,11}
        IRQ (Level, ActiveLow, Exclusive, ) {}
        IRQ (Edge, ActiveHigh, Shared, ) {0,1,2,3,4,5,6,7,8,9,10,11,12,13,14,15}
    })
    Name (R001, ResourceTemplate ()
    {
        IRQNoFlags () {3,4}
        IRQNoFlags () {}
        IRQNoFlags () {0,1,2,3,4,5,6,7,8,9,10,11,12,13,14,15}
        DMA (Compatibility, BusMaster, Transfer8, ) {2}
    })
    Name (R002, ResourceTemplate ()
    {
        IO (Decode16, 0x3F8, 0x3F8, 1, 8)
        IO (Decode10, 0x100, 0x1F0, 16, 16)
        IO (Decode16, 0, 0xFF00, 255, 255)
        FixedIO (0x60, 1)
        FixedIO (0x3FF, 255)
    })
    Name (R003, ResourceTemplate ()
    {
        Memory32 (ReadWrite, 0x000C0000, 0x000F0000, 0x00001000, 0x00010000)
        Memory32 (ReadOnly, 0x00000000, 0xFFFFF000, 0x00001000, 0xFFFFF000)
        Memory32Fixed (ReadOnly, 0xFEC00000, 0x00000400)
        Memory32Fixed (ReadWrite, 0xFED00000, 0x00001000)
        Memory24 (ReadWrite, 0x0010, 0x0020, 0x0001, 0x0002)
    })
    Name (R004, ResourceTemplate ()
    {
        WordBusNumber (ResourceProducer, MinFixed, MaxFixed, PosDecode,
            0x0000, 0x0000, 0x00FF, 0x0000, 0x0100)
        WordIO (ResourceProducer, MinFixed, MaxFixed, PosDecode, EntireRange,
            0x0000, 0x0000, 0x0CF7, 0x0000, 0x0CF8)
        WordSpace (0xC0, ResourceConsumer, PosDecode, MinFixed, MaxFixed, 0x00,
            0x0000, 0x1000, 0x1FFF, 0x0000, 0x1000)
        DWordMemory (ResourceProducer, PosDecode, MinFixed, MaxFixed, Cacheable, ReadWrite,
            0x00000000, 0xE0000000, 0xEFFFFFFF, 0x00000000, 0x10000000)
        DWordIO (ResourceProducer, MinFixed, MaxFixed, PosDecode, EntireRange,
            0x00000000, 0x00000D00, 0x0000FFFF, 0x00000000, 0x0000F300)
        DWordMemory (ResourceConsumer, SubDecode, MinFixed, MaxFixed, NonCacheable, ReadOnly,
            0x00000000, 0xFE000000, 0xFE000FFF, 0x01000000, 0x00001000)
        QWordMemory (ResourceProducer, PosDecode, MinFixed, MaxFixed, Prefetchable, ReadWrite,
            0x0000000000000000, 0x0000000100000000, 0x00000001FFFFFFFF, 0x0000000000000000,
            0x0000000100000000)
        QWordIO (ResourceProducer, MinFixed, MaxFixed, PosDecode, EntireRange,
            0x0000000000000000, 0x0000000000000000, 0x000000000000FFFF, 0x00000000FE000000,
            0x0000000000010000, , , , TypeTranslation)
    })
    Name (R005, ResourceTemplate ()
    {
        DWordMemory (ResourceProducer, PosDecode, MinFixed, MaxFixed, Cacheable, ReadWrite,
            0x00000000, 0x80000000, 0x8FFFFFFF, 0x00000000, 0x10000000, 0x01, "\\_SB.PCI0")
        QWordMemory (ResourceProducer, PosDecode, MinNotFixed, MaxNotFixed, Cacheable, ReadWrite,
            0x0000000000000FFF, 0x0000001000000000, 0x0000001FFFFFFFFF, 0x0000000000000000,
            0x0000000000100000, 0x00, "\\_SB.PCI1")
    })
    Name (R006, ResourceTemplate ()
    {
        Interrupt (ResourceConsumer, Level, ActiveLow, Shared, , , ) {16, 17}
        Interrupt (ResourceConsumer, Edge, ActiveHigh, Exclusive, , , ) {0xFFFFFFFF}
        Interrupt (ResourceProducer, Level, ActiveHigh, Shared, , , ) {0, 256, 65536}
        Interrupt (ResourceConsumer, Edge, ActiveLow, Exclusive, 0x00, "\\_SB.LNKA", ) {40}
        Interrupt (ResourceConsumer, Level, ActiveLow, Shared, , , )
        {
            1,2,3,4,5,6,7,8,9,10,11,12,13,14,15,16,17,18,19,20,21,22,23,24,25,26,27,28,29,30,31,32,
            33,34,35,36,37,38,39,40,41,42,43,44,45,46,47,48,49,50,51,52,53,54,55,56,57,58,59,60,61,62,63
        }
    })
    Name (R007, ResourceTemplate ()
    {
        StartDependentFn (1, 2)
        {
            IRQNoFlags () {5}
            IO (Decode16, 0x220, 0x220, 1, 16)
        }
        StartDependentFnNoPri ()
        {
            IRQNoFlags () {7}
        }
        EndDependentFn ()
        VendorShort () {1,2,3}
        VendorLong () {1,2,3,4,5,6,7,8,9}
    })
}
