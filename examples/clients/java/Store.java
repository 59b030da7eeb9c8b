import io.netty.bootstrap.Bootstrap;
import io.netty.buffer.Unpooled;
import io.netty.channel.*;
import io.netty.channel.nio.NioEventLoopGroup;
import io.netty.channel.pool.*;
import io.netty.channel.socket.nio.NioSocketChannel;
import io.netty.handler.codec.redis.*;
import io.netty.util.*;
import java.io.IOException;
import java.nio.charset.StandardCharsets;
import java.util.*;
import java.util.concurrent.*;

/** A client of ssikvd over Netty's RESP2 codec and its pool of channels (Debian: libnetty-java), which resend nothing. */
final class Store implements AutoCloseable {
    /** The server refused a request; the message says why. */
    @SuppressWarnings("serial")
    static final class Refused extends Exception {
        Refused(String message) { super(message); }

        boolean mayBeginAgain() { return getMessage().startsWith("CONFLICT") || getMessage().equals("FULL transactions"); }
    }

    /** What runs inside a transaction, perhaps more than once. */
    interface Work<T> { T run(Session session) throws Refused, IOException; }

    /** One connection. A reply is a String, a Long, a list of these, or null for a key that is not there. */
    static final class Session extends SimpleChannelInboundHandler<RedisMessage> {
        private static final AttributeKey<Session> KEY = AttributeKey.valueOf("session");
        private static final RedisMessage GONE = new SimpleStringRedisMessage("");
        private final BlockingQueue<RedisMessage> replies = new LinkedBlockingQueue<>();
        private Channel channel;

        Object ask(Object... parts) throws Refused, IOException {
            List<RedisMessage> bulks = new ArrayList<>();
            for (Object part : parts) {
                bulks.add(new FullBulkStringRedisMessage(Unpooled.copiedBuffer(part.toString(), StandardCharsets.UTF_8)));
            }
            channel.writeAndFlush(new ArrayRedisMessage(bulks));
            try {
                RedisMessage reply = replies.poll(30, TimeUnit.SECONDS);
                if (reply == GONE) replies.add(GONE);    // for whoever asks next
                else if (reply != null) return value(reply);
            } catch (InterruptedException interrupted) {
                Thread.currentThread().interrupt();
            }
            channel.close();
            throw new IOException("the connection is lost");
        }

        private static Object value(RedisMessage reply) throws Refused {
            try {
                if (reply instanceof ErrorRedisMessage) throw new Refused(((ErrorRedisMessage) reply).content());
                if (reply instanceof IntegerRedisMessage) return ((IntegerRedisMessage) reply).value();
                if (reply instanceof SimpleStringRedisMessage) return ((SimpleStringRedisMessage) reply).content();
                if (reply instanceof FullBulkStringRedisMessage) {
                    FullBulkStringRedisMessage bulk = (FullBulkStringRedisMessage) reply;
                    return bulk.isNull() ? null : bulk.content().toString(StandardCharsets.UTF_8);
                }
                List<Object> all = new ArrayList<>();
                for (RedisMessage part : ((ArrayRedisMessage) reply).children()) all.add(value(ReferenceCountUtil.retain(part)));
                return all;
            } finally {
                ReferenceCountUtil.release(reply);
            }
        }

        @Override public void channelRead0(ChannelHandlerContext context, RedisMessage reply) { replies.add(ReferenceCountUtil.retain(reply)); }

        @Override public void channelInactive(ChannelHandlerContext context) { replies.add(GONE); }

        @Override public void exceptionCaught(ChannelHandlerContext context, Throwable cause) { context.close(); }
    }

    private final EventLoopGroup group = new NioEventLoopGroup();
    private final ChannelPool pool;

    /** At most so many connections, each lent for one whole transaction. All programs together may have 64. */
    Store(String host, int port, int size) {
        Bootstrap bootstrap = new Bootstrap().group(group).channel(NioSocketChannel.class).remoteAddress(host, port);
        pool = new FixedChannelPool(bootstrap.option(ChannelOption.TCP_NODELAY, true), new AbstractChannelPoolHandler() {
            @Override public void channelCreated(Channel channel) {
                Session session = new Session();
                session.channel = channel;
                channel.attr(Session.KEY).set(session);
                channel.pipeline().addLast(
                    new RedisEncoder(), new RedisDecoder(), new RedisBulkStringAggregator(), new RedisArrayAggregator(), session);
            }
        }, size);
    }

    private <T> T attempt(Work<T> work) throws Refused, IOException {
        io.netty.util.concurrent.Future<Channel> lent = pool.acquire().awaitUninterruptibly();
        if (!lent.isSuccess()) throw new IOException(lent.cause());
        Session session = lent.getNow().attr(Session.KEY).get();
        boolean isOpen = false;
        try {
            session.ask("BEGIN");
            isOpen = true;
            T result = work.run(session);
            isOpen = false;
            session.ask("COMMIT");
            return result;
        } finally {
            if (isOpen) session.channel.close();    // so that nobody is lent an open transaction
            pool.release(session.channel);
        }
    }

    /** Runs the work in a transaction until COMMIT is answered a number. IOException: if COMMIT was sent, its outcome is unknown. */
    <T> T transact(Work<T> work) throws Refused, IOException {
        for (int turn = 0; ; turn++) {
            try {
                return attempt(work);
            } catch (Refused refusal) {
                if (!refusal.mayBeginAgain() || turn == 1_000) throw refusal;
            }
            pause(turn);
        }
    }

    /** Runs the work in a transaction that commits once, though connections are lost. Did this call commit it? */
    boolean once(String name, Work<?> work) throws Refused, IOException {
        for (int turn = 0; ; turn++) {
            try {
                return transact(session -> {
                    if (session.ask("GET", "done:" + name) != null) return false;
                    work.run(session);
                    session.ask("SET", "done:" + name, "");
                    return true;
                });
            } catch (IOException lost) {
                if (turn == 1_000) throw lost;
            }
            pause(turn);
        }
    }

    /** Waits at random, so that two do not meet again and again. */
    private static void pause(int turn) {
        java.util.concurrent.locks.LockSupport.parkNanos((long) (Math.random() * (1_000_000L << Math.min(turn, 6))));
    }

    @Override public void close() {
        pool.close();
        group.shutdownGracefully(0, 1, TimeUnit.SECONDS);
    }
}
