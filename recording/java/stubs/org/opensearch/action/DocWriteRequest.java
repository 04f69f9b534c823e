// A stub: what RecordingClient and the examples need of OpenSearch's class of this name, and no more.
package org.opensearch.action;

import org.opensearch.index.VersionType;

public interface DocWriteRequest<T> {
    String index();

    String id();

    String routing();

    OpType opType();

    long ifSeqNo();

    long ifPrimaryTerm();

    long version();

    VersionType versionType();

    enum OpType {
        INDEX,
        CREATE,
        UPDATE,
        DELETE
    }
}
