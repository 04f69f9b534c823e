// A stub: what RecordingClient and the examples need of OpenSearch's class of this name, and no more.
package org.opensearch;

public final class ExceptionsHelper {
    private ExceptionsHelper() {}

    public static Throwable unwrapCause(Throwable thrown) {
        Throwable cause = thrown;
        while (cause instanceof OpenSearchWrapperException && cause.getCause() != null && cause.getCause() != cause) {
            cause = cause.getCause();
        }
        return cause;
    }
}
