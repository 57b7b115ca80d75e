/** The map that a {@code mapd} server keeps, as a {@link java.util.concurrent.ConcurrentMap}. It needs nothing but the JDK. */
module bpfmap {
    exports bpfmap;
}
