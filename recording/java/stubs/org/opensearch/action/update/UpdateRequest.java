// A stub: what RecordingClient and the examples need of OpenSearch's class of this name, and no more.
package org.opensearch.action.update;

import java.util.Map;
import org.opensearch.action.ActionRequest;
import org.opensearch.action.DocWriteRequest;
import org.opensearch.action.index.IndexRequest;
import org.opensearch.common.lucene.uid.Versions;
import org.opensearch.index.VersionType;
import org.opensearch.script.Script;

public class UpdateRequest extends ActionRequest implements DocWriteRequest<UpdateRequest> {
    private final String index;
    private String id;
    private String routing;
    private long ifSeqNo = -2;
    private long ifPrimaryTerm;
    private long version = Versions.MATCH_ANY;
    private VersionType versionType = VersionType.INTERNAL;
    private Script script;
    private Map<String, Object> part;

    public UpdateRequest(String index) {
        this.index = index;
    }

    public UpdateRequest id(String id) {
        this.id = id;
        return this;
    }

    public UpdateRequest routing(String routing) {
        this.routing = routing;
        return this;
    }

    public UpdateRequest setIfSeqNo(long seqNo) {
        ifSeqNo = seqNo;
        return this;
    }

    public UpdateRequest setIfPrimaryTerm(long term) {
        ifPrimaryTerm = term;
        return this;
    }

    public UpdateRequest version(long version) {
        this.version = version;
        return this;
    }

    public UpdateRequest versionType(VersionType versionType) {
        this.versionType = versionType;
        return this;
    }

    @Override
    public String index() {
        return index;
    }

    @Override
    public String id() {
        return id;
    }

    @Override
    public String routing() {
        return routing;
    }

    @Override
    public OpType opType() {
        return OpType.UPDATE;
    }

    @Override
    public long ifSeqNo() {
        return ifSeqNo;
    }

    @Override
    public long ifPrimaryTerm() {
        return ifPrimaryTerm;
    }

    @Override
    public long version() {
        return version;
    }

    @Override
    public VersionType versionType() {
        return versionType;
    }

    public UpdateRequest script(Script script) {
        this.script = script;
        return this;
    }

    public Script script() {
        return script;
    }

    public UpdateRequest doc(Map<String, Object> part) {
        this.part = part;
        return this;
    }

    public IndexRequest doc() {
        return new IndexRequest(index).source(part);
    }
}
