package casbench.examples;

import casbench.CasHistory;
import casbench.RecordingClient;

import java.nio.file.Path;
import java.util.ArrayList;
import java.util.List;
import java.util.Map;
import java.util.Random;
import java.util.concurrent.CompletableFuture;
import java.util.concurrent.ExecutionException;
import java.util.concurrent.TimeUnit;
import java.util.concurrent.TimeoutException;

import org.opensearch.action.ActionRequest;
import org.opensearch.action.ActionType;
import org.opensearch.action.delete.DeleteAction;
import org.opensearch.action.delete.DeleteRequest;
import org.opensearch.action.get.GetAction;
import org.opensearch.action.get.GetRequest;
import org.opensearch.action.get.GetResponse;
import org.opensearch.action.index.IndexAction;
import org.opensearch.action.index.IndexRequest;
import org.opensearch.client.Client;
import org.opensearch.core.action.ActionListener;
import org.opensearch.core.action.ActionResponse;

/**
 * Conditional writes by several threads, through the clients of several nodes, while the cluster is disrupted: the idea of OpenSearch's
 * {@code ConcurrentSeqNoVersioningIT}. There each thread writes documents of its own and a checker in the test judges writes alone. Here
 * threads share documents, and gets, creates and deletes are judged too.
 *
 * <p>In OpenSearch it is a method of a subclass of {@code AbstractDisruptionTestCase}, whose cluster this interface stands for.
 */
public final class ConcurrentVersionedWritesIT {
    /** What the test needs of a cluster. */
    public interface Cluster {
        /**
         * A client of each node that no disruption cuts off from the others or stops. Such a node may answer gets with old versions, as
         * OpenSearch documents, and the profile refutes that.
         */
        List<Client> clients();

        /** Begins a disruption and ends it, and returns when the cluster is whole again. */
        void disrupt();
    }

    private static final String INDEX = "carts";
    private static final int DOCUMENTS = 8;
    private static final long MOST_SECONDS = 30;

    private final List<Client> clients = new ArrayList<>();
    private final CasHistory history;

    private ConcurrentVersionedWritesIT(Cluster cluster, CasHistory history) {
        this.history = history;
        RecordingClient.Index index = new RecordingClient.Index(history, INDEX);
        for (Client client : cluster.clients()) {
            clients.add(new RecordingClient(client, index, "node-" + clients.size()));
        }
    }

    /** Records so many turns of each thread on an index that is empty, and asserts that OpenSearch's promises explain them. */
    public static void run(Cluster cluster, Path file, int threads, int turns) throws InterruptedException {
        try (CasHistory history = CasHistory.open(file)) {
            ConcurrentVersionedWritesIT test = new ConcurrentVersionedWritesIT(cluster, history);
            List<Thread> running = new ArrayList<>();
            for (int i = 0; i < threads; i++) {
                Random random = new Random(i);
                running.add(new Thread(() -> test.turns(random, turns)));
            }
            running.forEach(Thread::start);
            while (running.stream().anyMatch(Thread::isAlive)) {
                history.note("a disruption begins");
                cluster.disrupt();
                history.note("it is over");
            }
            for (Thread thread : running) {
                thread.join();
            }
            history.assertExplained("--profile", "opensearch", "--at-least", "100");
        }
    }

    private void turns(Random random, int turns) {
        for (int i = 0; i < turns; i++) {
            Client client = clients.get(random.nextInt(clients.size()));
            String id = "d" + random.nextInt(DOCUMENTS);
            switch (random.nextInt(10)) {
                case 0:
                    ask(client, IndexAction.INSTANCE, write(id, random));
                    break;
                case 1:
                    ask(client, IndexAction.INSTANCE, write(id, random).create(true));
                    break;
                case 2:
                    ask(client, DeleteAction.INSTANCE, new DeleteRequest(INDEX).id(id));
                    break;
                default:
                    swap(client, id, random);
            }
        }
    }

    /** Reads the document, and writes it under the condition of what was read. */
    private void swap(Client client, String id, Random random) {
        GetResponse read = ask(client, GetAction.INSTANCE, new GetRequest(INDEX, id));
        if (read != null && read.isExists()) {
            IndexRequest write = write(id, random).setIfSeqNo(read.getSeqNo()).setIfPrimaryTerm(read.getPrimaryTerm());
            ask(client, IndexAction.INSTANCE, write);
        }
    }

    private static IndexRequest write(String id, Random random) {
        return new IndexRequest(INDEX).id(id).source(Map.of("k", random.nextLong()));
    }

    /** Asks and waits; null if there is no answer, or an exception. What is answered later is recorded when it comes. */
    private <R extends ActionResponse> R ask(Client client, ActionType<R> action, ActionRequest request) {
        CompletableFuture<R> future = new CompletableFuture<>();
        client.execute(action, request, new ActionListener<R>() {
            @Override
            public void onResponse(R response) {
                future.complete(response);
            }

            @Override
            public void onFailure(Exception fault) {
                future.completeExceptionally(fault);
            }
        });
        try {
            return future.get(MOST_SECONDS, TimeUnit.SECONDS);
        } catch (ExecutionException | TimeoutException fault) {
            return null;
        } catch (InterruptedException interrupted) {
            throw new IllegalStateException(interrupted);
        }
    }
}
