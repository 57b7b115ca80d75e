package bpfmap;

import java.util.AbstractMap;

/** An entry as a walk found it; a new value is put into the map. */
final class PuttingEntry<K, V> extends AbstractMap.SimpleEntry<K, V> {
    private static final long serialVersionUID = 1;

    private final transient RemoteMap<K, V> map;

    PuttingEntry(RemoteMap<K, V> map, K key, V value) {
        super(key, value);
        this.map = map;
    }

    @Override
    public V setValue(V value) {
        map.put(getKey(), value);
        return super.setValue(value);
    }
}
