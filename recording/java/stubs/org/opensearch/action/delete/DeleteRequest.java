// A stub: what RecordingClient and the examples need of OpenSearch's class of this name, and no more.
package org.opensearch.action.delete;

import org.opensearch.action.ActionRequest;
import org.opensearch.action.DocWriteRequest;
import org.opensearch.common.lucene.uid.Versions;
import org.opensearch.index.VersionType;

public class DeleteRequest extends ActionRequest implements DocWriteRequest<DeleteRequest> {
    private final String index;
    private String id;
    private String routing;
    private long ifSeqNo = -2;
    private long ifPrimaryTerm;
    private long version = Versions.MATCH_ANY;
    private VersionType versionType = VersionType.INTERNAL;

    public DeleteRequest(String index) {
        this.index = index;
    }

    public DeleteRequest id(String id) {
        this.id = id;
        return this;
    }

    public DeleteRequest routing(String routing) {
        this.routing = routing;
        return this;
    }

    public DeleteRequest setIfSeqNo(long seqNo) {
        ifSeqNo = seqNo;
        return this;
    }

    public DeleteRequest setIfPrimaryTerm(long term) {
        ifPrimaryTerm = term;
        return this;
    }

    public DeleteRequest version(long version) {
        this.version = version;
        return this;
    }

    public DeleteRequest versionType(VersionType versionType) {
        this.versionType = versionType;
        return this;
    }

    @Override
    public String index() {
        return index;
    }

    @Override
    public String id() {
        return id;
    }

    @Override
    public String routing() {
        return routing;
    }

    @Override
    public OpType opType() {
        return OpType.DELETE;
    }

    @Override
    public long ifSeqNo() {
        return ifSeqNo;
    }

    @Override
    public long ifPrimaryTerm() {
        return ifPrimaryTerm;
    }

    @Override
    public long version() {
        return version;
    }

    @Override
    public VersionType versionType() {
        return versionType;
    }
}
