// A stub: what RecordingClient and the examples need of OpenSearch's class of this name, and no more.
package org.opensearch.core.action;

public abstract class ActionResponse {}
