// A stub: what RecordingClient and the examples need of OpenSearch's class of this name, and no more.
package org.opensearch.action.index;

import java.util.Map;
import java.util.Objects;
import org.opensearch.action.ActionRequest;
import org.opensearch.action.DocWriteRequest;
import org.opensearch.common.lucene.uid.Versions;
import org.opensearch.index.VersionType;

public class IndexRequest extends ActionRequest implements DocWriteRequest<IndexRequest> {
    private final String index;
    private String id;
    private String routing;
    private long ifSeqNo = -2;
    private long ifPrimaryTerm;
    private long version = Versions.MATCH_ANY;
    private VersionType versionType = VersionType.INTERNAL;
    private boolean isCreate;
    private String pipeline;
    private Map<String, Object> source;

    public IndexRequest(String index) {
        this.index = index;
    }

    public IndexRequest id(String id) {
        this.id = id;
        return this;
    }

    public IndexRequest routing(String routing) {
        this.routing = routing;
        return this;
    }

    public IndexRequest setIfSeqNo(long seqNo) {
        ifSeqNo = seqNo;
        return this;
    }

    public IndexRequest setIfPrimaryTerm(long term) {
        ifPrimaryTerm = term;
        return this;
    }

    public IndexRequest version(long version) {
        this.version = version;
        return this;
    }

    public IndexRequest versionType(VersionType versionType) {
        this.versionType = versionType;
        return this;
    }

    @Override
    public String index() {
        return index;
    }

    @Override
    public String id() {
        return id;
    }

    @Override
    public String routing() {
        return routing;
    }

    @Override
    public OpType opType() {
        return isCreate ? OpType.CREATE : OpType.INDEX;
    }

    @Override
    public long ifSeqNo() {
        return ifSeqNo;
    }

    @Override
    public long ifPrimaryTerm() {
        return ifPrimaryTerm;
    }

    @Override
    public long version() {
        return version;
    }

    @Override
    public VersionType versionType() {
        return versionType;
    }

    public IndexRequest create(boolean create) {
        isCreate = create;
        return this;
    }

    public IndexRequest setPipeline(String pipeline) {
        this.pipeline = pipeline;
        return this;
    }

    public String getPipeline() {
        return pipeline;
    }

    public IndexRequest source(Map<String, Object> source) {
        this.source = source;
        return this;
    }

    public Map<String, Object> sourceAsMap() {
        return Objects.requireNonNull(source);
    }
}
